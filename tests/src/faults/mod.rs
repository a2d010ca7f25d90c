//! Movers with one fault each, to see that the comparison reports it.

mod counting;
mod dropping;
pub mod exports;
pub mod hex;
pub mod listing;
pub mod lists;
mod manners;
pub mod operations;
pub mod orders;
mod pairing;
pub mod pinning;
pub mod programs;
mod reading;
mod reads;
mod rebuilding;
mod recovery;
mod refusing;
mod running;
mod splitting;
mod wearing;

use crate::harness::interface::Calls;
use crate::simulator::rules::Rules;
use exports::{calls, Clean};

pub struct Fault {
    pub name: &'static str,
    pub calls: Calls,
}

/// A fault in the rules.
fn fault<R: Rules>(name: &'static str) -> Fault {
    let calls = calls::<R, Clean>();
    Fault { name, calls }
}

pub fn all_faults() -> Vec<Fault> {
    let topics = [
        refusing::faults(),
        splitting::faults(),
        running::faults(),
        reading::faults(),
        recovery::faults(),
        counting::faults(),
        reads::faults(),
        rebuilding::faults(),
        pinning::faults(),
        dropping::faults(),
        wearing::faults(),
        pairing::faults(),
        manners::faults(),
    ];
    topics.into_iter().flatten().collect()
}
