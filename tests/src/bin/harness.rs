//! Shows that the comparison passes the simulator itself and reports every
//! seeded fault.

use mover_tests::checks::tally::{ensure, Tally};
use mover_tests::faults::all_faults;
use mover_tests::faults::exports::{calls, Clean};
use mover_tests::faults::hex::exports::{hex_calls, HexClean};
use mover_tests::faults::hex::hex_faults;
use mover_tests::faults::listing::exports::{listing_call, ListingClean};
use mover_tests::faults::listing::listing_faults;
use mover_tests::faults::lists;
use mover_tests::faults::operations::faulty_tellings;
use mover_tests::faults::orders::exports::{order_calls, OrderClean};
use mover_tests::faults::orders::order_faults;
use mover_tests::faults::pinning::DropFirst;
use mover_tests::faults::programs::faulty_programs;
use mover_tests::harness::compare::{
    check_mover, first_broken_demand, first_difference, first_in_lists,
};
use mover_tests::harness::families::answers::requests;
use mover_tests::harness::hex::compare::{check_hex, first_hex_difference};
use mover_tests::harness::listing::compare::{check_listings, first_listing_difference};
use mover_tests::harness::operations::compare_operations;
use mover_tests::harness::orders::compare::{check_orders, first_order_difference};
use mover_tests::harness::programs::compare_program;
use mover_tests::random::seed_from_environment;
use mover_tests::simulator::calls::{answer, answer_by};
use mover_tests::simulator::request::Request;
use mover_tests::simulator::rules::Correct;
use mover_tests::simulator::step_program::step_program;
use std::process::ExitCode;

fn main() -> ExitCode {
    let seed = seed_from_environment();
    println!("seed {seed}");
    let mut tally = Tally::default();
    // A difference in these would be a fault of the harness.
    check_mover(
        &mut tally,
        "the simulator itself",
        &calls::<Correct, Clean>(),
        seed,
    );
    let itself = compare_program(seed, |input| step_program(input).into_bytes());
    tally.check("the simulator's step program itself", itself);
    tally.check(
        "the simulator's steps themselves",
        compare_operations(|_, _, due| due),
    );
    let itself = hex_calls::<Correct, HexClean>();
    check_hex(&mut tally, "the simulator itself", &itself, seed);
    let itself = listing_call::<Correct, ListingClean>();
    check_listings(&mut tally, "the simulator itself", itself, seed);
    let itself = order_calls::<Correct, OrderClean>();
    check_orders(&mut tally, "the simulator itself", &itself, seed);
    tally.check("answers before request (xii)", as_before(seed));
    faults_reported(&mut tally, seed);
    demand_3_reported(&mut tally, seed);
    tally.finish()
}

const LEAST_ANSWERS: usize = 20_000;

/// The calls whose answers are written to a file have none that request (xii)
/// changed.
fn as_before(seed: u64) -> Result<(), String> {
    let requests = requests(seed);
    ensure(requests.len() >= LEAST_ANSWERS, || {
        format!("{} are too few", requests.len())
    })?;
    let changed = |request: &&Request| answer_by::<DropFirst>(request) != answer(request);
    match requests.iter().find(changed) {
        Some(request) => Err(request.to_string()),
        None => Ok(()),
    }
}

fn faults_reported(tally: &mut Tally, seed: u64) {
    for fault in all_faults() {
        let found = first_difference(&fault.calls, seed).map(|(family, _)| family);
        reported(tally, fault.name, found);
    }
    for fault in lists::faults() {
        let found = first_in_lists(&fault.calls, seed).map(|(family, _)| family);
        reported(tally, fault.name, found);
    }
    for fault in faulty_tellings() {
        let found = compare_operations(fault.told).err();
        reported(tally, fault.name, found.map(|_| "the step at a place"));
    }
    for fault in hex_faults() {
        let found = first_hex_difference(&fault.calls, seed);
        reported(tally, fault.name, found);
    }
    for fault in listing_faults() {
        let found = first_listing_difference(fault.call, seed);
        reported(tally, fault.name, found);
    }
    for fault in order_faults() {
        let found = first_order_difference(&fault.calls, seed);
        reported(tally, fault.name, found);
    }
    for fault in faulty_programs() {
        let found = compare_program(seed, fault.answer).err();
        reported(tally, fault.name, found.map(|_| "step program"));
    }
}

/// The checks of demand 3 pass the simulator, and notice some faults without
/// its answers.
fn demand_3_reported(tally: &mut Tally, seed: u64) {
    let itself = first_broken_demand(&calls::<Correct, Clean>(), seed);
    tally.check("demand 3 of the simulator", itself.map_or(Ok(()), Err));
    let faults = || all_faults().into_iter().chain(lists::faults());
    for (name, words) in lists::BREAKING_DEMAND_3 {
        let fault = faults().find(|fault| fault.name == name);
        let found = fault.and_then(|fault| first_broken_demand(&fault.calls, seed));
        let as_due = |what: &String| words.split('|').any(|words| what.contains(words));
        let found = found.filter(|what| what.starts_with("demand 3") && as_due(what));
        reported(tally, name, found.as_deref());
    }
}

fn reported(tally: &mut Tally, name: &str, found: Option<&str>) {
    if let Some(how) = found {
        println!("reported: {name} ({how})");
    }
    tally.check(name, found.map(|_| ()).ok_or("not reported".into()));
}
