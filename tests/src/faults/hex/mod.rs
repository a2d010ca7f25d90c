//! HEX calls with one fault each.

pub mod exports;
mod forms;
mod manners;
mod reading;
mod refusing;
mod writing;

use crate::harness::interface::HexCalls;
use crate::simulator::hex::rules::HexRules;
use exports::{hex_calls, HexClean};

pub struct HexFault {
    pub name: &'static str,
    pub calls: HexCalls,
}

/// A fault in the rules.
fn fault<R: HexRules>(name: &'static str) -> HexFault {
    let calls = hex_calls::<R, HexClean>();
    HexFault { name, calls }
}

pub fn hex_faults() -> Vec<HexFault> {
    let topics = [
        refusing::faults(),
        forms::faults(),
        reading::faults(),
        writing::faults(),
        manners::faults(),
    ];
    topics.into_iter().flatten().collect()
}

/// A type with the right rules but for what stands in the braces.
macro_rules! but_for {
    ($($name:ident { $($rule:item)* })*) => {
        $(struct $name;
        impl HexRules for $name {
            $($rule)*
        })*
    };
}
use but_for;
