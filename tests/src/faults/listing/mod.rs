//! Checkers of listings with one fault each.

mod ends;
pub mod exports;
mod forms;
mod manners;
mod refusing;
mod states;

use crate::harness::interface::ListingCall;
use crate::simulator::listing::rules::ListingRules;
use exports::{listing_call, ListingClean};

pub struct ListingFault {
    pub name: &'static str,
    pub call: ListingCall,
}

/// A fault in the rules.
fn fault<R: ListingRules>(name: &'static str) -> ListingFault {
    let call = listing_call::<R, ListingClean>();
    ListingFault { name, call }
}

pub fn listing_faults() -> Vec<ListingFault> {
    let topics = [
        refusing::faults(),
        forms::faults(),
        states::faults(),
        ends::faults(),
        manners::faults(),
    ];
    topics.into_iter().flatten().collect()
}

/// A type with the right rules but for what stands in the braces.
macro_rules! but_for {
    ($($name:ident { $($rule:item)* })*) => {
        $(struct $name;
        impl ListingRules for $name {
            $($rule)*
        })*
    };
}
use but_for;
