//! Movers with one fault each in the calls about block orders.

pub mod exports;
mod finding;
mod refusing;

use crate::harness::interface::OrderCalls;
use crate::simulator::orders::rules::OrderRules;
use exports::{order_calls, OrderClean};

pub struct OrderFault {
    pub name: &'static str,
    pub calls: OrderCalls,
}

/// A fault in the rules.
fn fault<R: OrderRules>(name: &'static str) -> OrderFault {
    let calls = order_calls::<R, OrderClean>();
    OrderFault { name, calls }
}

pub fn order_faults() -> Vec<OrderFault> {
    let topics = [refusing::faults(), finding::faults(), exports::faults()];
    topics.into_iter().flatten().collect()
}

/// A type with the right rules but for what stands in the braces.
macro_rules! but_for {
    ($($name:ident { $($rule:item)* })*) => {
        $(struct $name;
        impl OrderRules for $name {
            $($rule)*
        })*
    };
}
use but_for;
