//! The comparison of checked listings with the simulator.

use super::drive::drive;
use super::families::FAMILIES;
use crate::checks::tally::{ensure, Tally};
use crate::harness::interface::ListingCall;
use crate::random::Random;
use crate::simulator::listing::calls::listing_answer;
use crate::simulator::listing::lines::lines;
use crate::simulator::listing::request::{ListingAnswer, ListingRequest};
use std::collections::BTreeMap;

/// A checker under comparison; how often each answer was due: the number
/// returned, and whether the listing was accepted.
pub struct ListingComparer {
    call: ListingCall,
    due: BTreeMap<(u32, u32), u64>,
    trace: bool,
}

/// "Yes" and "no" are answers of a call carried out.
const YES: (u32, u32) = (0, 1);
const NO: (u32, u32) = (0, 0);
const ANSWERS: [(u32, u32); 8] = [YES, NO, (1, 0), (2, 0), (3, 0), (13, 0), (14, 0), (15, 0)];

const LEAST_OF_EACH: u64 = 500;

impl ListingComparer {
    fn new(call: ListingCall) -> ListingComparer {
        ListingComparer {
            call,
            due: BTreeMap::new(),
            trace: std::env::var_os("MOVER_TRACE").is_some(),
        }
    }

    pub fn compare(&mut self, request: &ListingRequest) -> Result<ListingAnswer, String> {
        if self.trace {
            println!("{request}");
        }
        let due = listing_answer(request);
        if let Some(what) = difference(self.call, request, &due) {
            return Err(shrunk(self.call, request.clone(), what));
        }
        *self.due.entry((due.returned, due.accepted)).or_default() += 1;
        Ok(due)
    }

    fn all_compared(&self) -> u64 {
        self.due.values().sum()
    }

    fn enough(&self) -> Result<(), String> {
        println!("listings, by number returned and accepted: {:?}", self.due);
        for answer in ANSWERS {
            let count = self.due.get(&answer).copied().unwrap_or(0);
            ensure(count >= LEAST_OF_EACH, || {
                format!("{answer:?} was due only {count} times")
            })?;
        }
        Ok(())
    }
}

fn difference(call: ListingCall, request: &ListingRequest, due: &ListingAnswer) -> Option<String> {
    match drive(call, request) {
        Err(damage) => Some(damage),
        Ok(given) => (given != *due).then(|| format!("returned {given:?}\n     due {due:?}")),
    }
}

/// Leaves out lines from the end on, as long as the answers differ.
fn shrunk(call: ListingCall, mut request: ListingRequest, mut what: String) -> String {
    let count = lines(&request.text).count();
    for left_out in (0..count).rev() {
        let mut shorter = request.clone();
        let kept = lines(&request.text).enumerate();
        let kept = kept.filter(|&(index, _)| index != left_out);
        shorter.text = kept.flat_map(|(_, line)| line.to_vec()).collect();
        if let Some(still) = difference(call, &shorter, &listing_answer(&shorter)) {
            (request, what) = (shorter, still);
        }
    }
    format!("{what}\n{request}")
}

/// Each family has its own random numbers from the seed.
fn random_of(seed: u64, family: usize) -> Random {
    Random::new(seed.wrapping_mul(1000).wrapping_add(700 + family as u64))
}

/// Compares with all families; each is a check.
pub fn check_listings(tally: &mut Tally, name: &str, call: ListingCall, seed: u64) {
    let mut comparer = ListingComparer::new(call);
    for (index, family) in FAMILIES.iter().enumerate() {
        let before = comparer.all_compared();
        let mut outcome = (family.cases)(&mut comparer, &mut random_of(seed, index));
        if outcome.is_ok() && comparer.all_compared() == before {
            outcome = Err("nothing was compared".into());
        }
        tally.check(&format!("{name}, {}", family.name), outcome);
    }
    tally.check(&format!("{name}, answers of every kind"), comparer.enough());
}

/// The family that finds the first difference.
pub fn first_listing_difference(call: ListingCall, seed: u64) -> Option<&'static str> {
    let mut comparer = ListingComparer::new(call);
    FAMILIES.iter().enumerate().find_map(|(index, family)| {
        let outcome = (family.cases)(&mut comparer, &mut random_of(seed, index));
        outcome.is_err().then_some(family.name)
    })
}
