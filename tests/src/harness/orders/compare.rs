//! The comparison of answers about block orders with the simulator.

use super::drive::drive;
use super::families::FAMILIES;
use crate::checks::tally::{ensure, Tally};
use crate::harness::interface::OrderCalls;
use crate::random::Random;
use crate::simulator::orders::calls::order_answer;
use crate::simulator::orders::request::{OrderAnswer, OrderRequest, Question, QUESTIONS};
use std::collections::BTreeMap;

/// A mover under comparison; how often each number was due, and how often each kind
/// of y.
pub struct OrderComparer<'a> {
    calls: &'a OrderCalls,
    due: BTreeMap<(Question, u32), u64>,
    /// y of 0, the highest, and those between, by question.
    found: BTreeMap<(Question, &'static str), u64>,
    trace: bool,
}

const LEAST_OF_EACH: u64 = 300;
const LEAST_OF_EACH_KIND: u64 = 100;

impl<'a> OrderComparer<'a> {
    fn new(calls: &'a OrderCalls) -> OrderComparer<'a> {
        OrderComparer {
            calls,
            due: BTreeMap::new(),
            found: BTreeMap::new(),
            trace: std::env::var_os("MOVER_TRACE").is_some(),
        }
    }

    pub fn compare(&mut self, request: &OrderRequest) -> Result<OrderAnswer, String> {
        if self.trace {
            println!("{request}");
        }
        let due = order_answer(request);
        let what = match drive(self.calls, request) {
            Err(damage) => Some(damage),
            Ok(given) => (given != due).then(|| format!("returned {given:?}\n     due {due:?}")),
        };
        if let Some(what) = what {
            return Err(format!("{what}\n{request}"));
        }
        let question = request.question;
        *self.due.entry((question, due.returned)).or_default() += 1;
        if due.returned == 0 {
            let kind = match due.y {
                0 => "none",
                y if y == request.n - 2 => "highest",
                _ => "between",
            };
            *self.found.entry((question, kind)).or_default() += 1;
        }
        Ok(due)
    }

    fn all_compared(&self) -> u64 {
        self.due.values().sum()
    }

    fn enough(&self) -> Result<(), String> {
        println!("orders, by number returned: {:?}", self.due);
        println!("orders, by y: {:?}", self.found);
        for question in QUESTIONS {
            let numbers: &[u32] = match question {
                Question::Least => &[0, 1, 2, 3, 16, 17],
                Question::Best => &[0, 1, 2, 3, 16],
            };
            for &number in numbers {
                let count = self.due.get(&(question, number)).copied().unwrap_or(0);
                ensure(count >= LEAST_OF_EACH, || {
                    format!("{number} of {question:?} was due only {count} times")
                })?;
            }
            for kind in ["none", "highest", "between"] {
                let count = self.found.get(&(question, kind)).copied().unwrap_or(0);
                ensure(count >= LEAST_OF_EACH_KIND, || {
                    format!("{kind} of {question:?} was due only {count} times")
                })?;
            }
        }
        Ok(())
    }
}

/// Each family has its own random numbers from the seed.
fn random_of(seed: u64, family: usize) -> Random {
    Random::new(seed.wrapping_mul(1000).wrapping_add(800 + family as u64))
}

/// Compares with all families; each is a check.
pub fn check_orders(tally: &mut Tally, name: &str, calls: &OrderCalls, seed: u64) {
    let mut comparer = OrderComparer::new(calls);
    for (index, family) in FAMILIES.iter().enumerate() {
        let before = comparer.all_compared();
        let mut outcome = (family.cases)(&mut comparer, &mut random_of(seed, index));
        if outcome.is_ok() && comparer.all_compared() == before {
            outcome = Err("nothing was compared".into());
        }
        tally.check(&format!("{name}, {}", family.name), outcome);
    }
    tally.check(&format!("{name}, orders of every kind"), comparer.enough());
}

/// The family that finds the first difference.
pub fn first_order_difference(calls: &OrderCalls, seed: u64) -> Option<&'static str> {
    let mut comparer = OrderComparer::new(calls);
    FAMILIES.iter().enumerate().find_map(|(index, family)| {
        let outcome = (family.cases)(&mut comparer, &mut random_of(seed, index));
        outcome.is_err().then_some(family.name)
    })
}
