//! The comparison of the HEX calls with the simulator.

use super::drive::drive;
use super::families::FAMILIES;
use crate::checks::tally::{ensure, Tally};
use crate::harness::interface::HexCalls;
use crate::random::Random;
use crate::simulator::hex::calls::hex_answer;
use crate::simulator::hex::reader::lines;
use crate::simulator::hex::request::{HexAnswer, HexCall, HexRequest, HEX_PARTS};
use std::collections::BTreeMap;

/// The HEX calls under comparison; how often each number was returned.
pub struct HexComparer<'a> {
    calls: &'a HexCalls,
    read: BTreeMap<u32, u64>,
    written: BTreeMap<u32, u64>,
    trace: bool,
}

impl<'a> HexComparer<'a> {
    fn new(calls: &'a HexCalls) -> HexComparer<'a> {
        HexComparer {
            calls,
            read: BTreeMap::new(),
            written: BTreeMap::new(),
            trace: std::env::var_os("MOVER_TRACE").is_some(),
        }
    }

    pub fn compare(&mut self, request: &HexRequest) -> Result<HexAnswer, String> {
        if self.trace {
            println!("{request}");
        }
        let due = hex_answer(request);
        if let Some(what) = difference(self.calls, request, &due) {
            return Err(shrunk(self.calls, request.clone(), what));
        }
        let count = match request.call {
            HexCall::Read => &mut self.read,
            HexCall::Write => &mut self.written,
        };
        *count.entry(due.returned).or_default() += 1;
        Ok(due)
    }

    fn all_compared(&self) -> u64 {
        self.read.values().chain(self.written.values()).sum()
    }

    /// Enough texts were read, and each answer was due often.
    fn enough(&self) -> Result<(), String> {
        println!("HEX texts read, by number returned: {:?}", self.read);
        println!("HEX texts written, by number returned: {:?}", self.written);
        let texts: u64 = self.read.values().sum();
        ensure(texts >= LEAST_TEXTS, || format!("only {texts} texts read"))?;
        for (counts, numbers) in [
            (&self.read, &[0, 1, 2, 8, 9, 10][..]),
            (&self.written, &[0, 1, 2, 5]),
        ] {
            for number in numbers {
                let count = counts.get(number).copied().unwrap_or(0);
                ensure(count >= LEAST_OF_EACH, || {
                    format!("number {number} was due only {count} times")
                })?;
            }
        }
        Ok(())
    }
}

const LEAST_TEXTS: u64 = 20_000;
const LEAST_OF_EACH: u64 = 100;

/// In which number or byte the answer differs from the one due.
fn difference(calls: &HexCalls, request: &HexRequest, due: &HexAnswer) -> Option<String> {
    let given = match drive(calls, request) {
        Ok(given) => given,
        Err(damage) => return Some(damage),
    };
    if given.returned != due.returned {
        return Some(format!(
            "returned {}, due is {}",
            given.returned, due.returned
        ));
    }
    HEX_PARTS.into_iter().find_map(|part| {
        let (given, due) = (given.parts.get(part), due.parts.get(part));
        let at = given
            .iter()
            .zip(due)
            .position(|(given, due)| given != due)?;
        let (given, due) = (given[at], due[at]);
        Some(format!(
            "byte {at} of the part {part:?} is {given}, due is {due}"
        ))
    })
}

/// Texts of more lines are printed as they are.
const LINES_TO_SHRINK: usize = 200;

/// Leaves out lines of a text that is read, as long as the answers differ.
fn shrunk(calls: &HexCalls, mut request: HexRequest, mut what: String) -> String {
    let count = lines(&request.parts.text).count();
    if request.call == HexCall::Read && count <= LINES_TO_SHRINK {
        for left_out in (0..count).rev() {
            let mut shorter = request.clone();
            let kept = lines(&request.parts.text).enumerate();
            let kept = kept.filter(|&(index, _)| index != left_out);
            shorter.parts.text = kept.flat_map(|(_, line)| line.to_vec()).collect();
            if let Some(still) = difference(calls, &shorter, &hex_answer(&shorter)) {
                (request, what) = (shorter, still);
            }
        }
    }
    format!("{what}\n{request}")
}

/// Each family has its own random numbers from the seed.
fn random_of(seed: u64, family: usize) -> Random {
    Random::new(seed.wrapping_mul(1000).wrapping_add(500 + family as u64))
}

/// Compares with all families; each is a check.
pub fn check_hex(tally: &mut Tally, name: &str, calls: &HexCalls, seed: u64) {
    let mut comparer = HexComparer::new(calls);
    for (index, family) in FAMILIES.iter().enumerate() {
        let before = comparer.all_compared();
        let mut outcome = (family.cases)(&mut comparer, &mut random_of(seed, index));
        if outcome.is_ok() && comparer.all_compared() == before {
            outcome = Err("nothing was compared".into());
        }
        tally.check(&format!("{name}, {}", family.name), outcome);
    }
    tally.check(&format!("{name}, number of HEX texts"), comparer.enough());
}

/// The family that finds the first difference.
pub fn first_hex_difference(calls: &HexCalls, seed: u64) -> Option<&'static str> {
    let mut comparer = HexComparer::new(calls);
    FAMILIES.iter().enumerate().find_map(|(index, family)| {
        let outcome = (family.cases)(&mut comparer, &mut random_of(seed, index));
        outcome.is_err().then_some(family.name)
    })
}
