//! Compares the proved library with the simulator.

use mover_tests::checks::tally::Tally;
use mover_tests::harness::compare::check_mover;
use mover_tests::harness::hex::compare::check_hex;
use mover_tests::harness::listing::compare::check_listings;
use mover_tests::harness::operations::{compare_operations, told_by};
use mover_tests::harness::orders::compare::check_orders;
use mover_tests::library;
use mover_tests::random::seed_from_environment;
use std::process::ExitCode;

fn main() -> ExitCode {
    let seed = seed_from_environment();
    println!("seed {seed}");
    let mut tally = Tally::default();
    check_mover(&mut tally, "the library", &library::calls(), seed);
    tally.check(
        "the library, the step at every place",
        compare_operations(told_by(library::operation())),
    );
    check_hex(&mut tally, "the library", &library::hex_calls(), seed);
    check_listings(&mut tally, "the library", library::listing_call(), seed);
    check_orders(&mut tally, "the library", &library::order_calls(), seed);
    tally.finish()
}
