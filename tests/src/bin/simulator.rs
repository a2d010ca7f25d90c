//! The simulator's own checks.

use mover_tests::checks::tally::Tally;
use mover_tests::checks::{
    call_lists, drop_cases, hand_cases, hex_cases, listing_cases, order_cases, pair_cases, papers,
    pin_cases,
};
use mover_tests::checks::{
    read_counts, rebuild_cases, recovery_lines, refusing, small_moves, step_inputs, torn,
    wear_cases,
};
use mover_tests::random::{seed_from_environment, Random};
use std::process::ExitCode;

fn main() -> ExitCode {
    let seed = seed_from_environment();
    println!("seed {seed}");
    let mut random = Random::new(seed);
    let mut tally = Tally::default();
    hand_cases::check(&mut tally);
    drop_cases::check(&mut tally);
    wear_cases::check(&mut tally);
    refusing::check(&mut tally);
    recovery_lines::check(&mut tally);
    papers::check(&mut tally);
    step_inputs::check(&mut tally);
    hex_cases::check(&mut tally);
    listing_cases::check(&mut tally, &mut random);
    order_cases::check(&mut tally, &mut random);
    pin_cases::check(&mut tally, &mut random);
    read_counts::check(&mut tally, &mut random);
    rebuild_cases::check(&mut tally, &mut random);
    small_moves::check(&mut tally, &mut random);
    pair_cases::check(&mut tally, &mut random);
    torn::check(&mut tally, &mut random);
    call_lists::check(&mut tally, &mut random);
    tally.finish()
}
