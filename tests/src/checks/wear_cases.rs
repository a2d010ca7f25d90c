//! Erase counters and their limit, worked by hand.

use super::tally::{same, Tally};
use crate::scene::Scene;
use crate::simulator::calls::answer;
use crate::simulator::cuts::tear;
use crate::simulator::request::{Numbers, Request};
use crate::simulator::rules::{Correct, Rules};
use crate::simulator::sizes::Sizes;
use crate::simulator::steps::{all_steps, Step};
use crate::simulator::wear::{counters, record, COUNTERS};

type Outcome = Result<(), String>;

pub fn check(tally: &mut Tally) {
    tally.check("the erases of each block", erases_by_block());
    tally.check("a record of 265 bytes", bytes_of_record());
    tally.check("counters of a whole move", whole_move());
    tally.check("counters step by step", step_by_step());
    tally.check("counters at their end", full_counters());
    tally.check("a limit kept and passed", limits());
    tally.check("limits at the end of 32 bits", widest_limits());
    tally.check("12 at place 0 alone", places());
    tally.check("12 after a recovery", after_recovery());
    tally.check("12 comes last", order());
}

/// The step program's case: n = 3, m = 1, list 1 2 0, originals 1 2 4.
fn program_case() -> Scene {
    let sizes = Sizes {
        n: 3,
        m: 1,
        page_bytes: 1,
        s: 0,
    };
    Scene::at_rest(sizes, vec![1, 2, 0], vec![1, 2, 4])
}

fn with_counters(counts: &[u32], limit: u32) -> Scene {
    let mut counters = vec![0; COUNTERS];
    counters[..counts.len()].copy_from_slice(counts);
    let mut scene = program_case();
    scene.wear = record::<Correct>(&counters);
    scene.wear_limit = limit;
    scene
}

fn first_counters(scene: &Scene) -> Vec<u32> {
    counters::<Correct>(&scene.wear)[..5].to_vec()
}

/// The rule has one for the ends and two for the others; the steps say the same.
fn erases_by_block() -> Outcome {
    for n in 1..=64 {
        let mut request = program_case().run_request(0, 0);
        request.sizes.n = n;
        let steps = all_steps(&request.sizes);
        for block in 0..=n as usize {
            let erased = |step: &&Step| **step == Step::Erase { block };
            let count = steps.iter().filter(erased).count() as u32;
            let name = format!("erases of block {block} with n = {n}");
            same(&name, Correct::erases_of(&request, block), count)?;
        }
    }
    Ok(())
}

fn bytes_of_record() -> Outcome {
    let mut scene = with_counters(&[], u32::MAX);
    same("bytes", scene.wear.len(), 265)?;
    scene.wear[4..8].copy_from_slice(&[255, 1, 0, 0]);
    scene.run(0, 2);
    same(
        "block 1, low byte first",
        &scene.wear[..12],
        &[0, 0, 0, 0, 0, 2, 0, 0, 0, 0, 0, 0],
    )
}

fn whole_move() -> Outcome {
    let mut scene = with_counters(&[10, 20, 30, 40, 50], u32::MAX);
    let whole = scene.run(0, u32::MAX).numbers;
    same("erases", whole.erases, 6)?;
    same("counters", first_counters(&scene), vec![11, 22, 32, 41, 50])
}

/// Erases at steps 1, 3, 5, 7, 9 and 11, of blocks 1 2 3 2 1 0.
fn step_by_step() -> Outcome {
    let mut scene = program_case();
    let mut due = vec![0; 5];
    for (place, block) in [1, 2, 3, 2, 1, 0].into_iter().enumerate() {
        let write = scene.run(2 * place as u32, 1);
        same("writes", write.numbers.writes, 1)?;
        same("after a write", first_counters(&scene), due.clone())?;
        scene.run(2 * place as u32 + 1, 1);
        due[block] += 1;
        same("after an erase", first_counters(&scene), due.clone())?;
    }
    scene.mend();
    due[0] += 1;
    same("after a recovery", first_counters(&scene), due)
}

/// The erases are reported all the same.
fn full_counters() -> Outcome {
    const END: u32 = u32::MAX;
    let mut scene = program_case();
    scene.run(0, 1);
    let mut counters = vec![0; COUNTERS];
    counters[..5].copy_from_slice(&[END - 1, END, END - 1, END - 2, END]);
    scene.wear = record::<Correct>(&counters);
    let rest = scene.run(1, END).numbers;
    same("erases", rest.erases, 6)?;
    same(
        "counters",
        first_counters(&scene),
        vec![END, END, END, END - 1, END],
    )?;
    same("erases of a recovery", scene.mend().numbers.erases, 1)?;
    same("block 0", first_counters(&scene)[0], END)
}

fn returned(request: &Request) -> u32 {
    answer(request).numbers.returned
}

/// Blocks 0 and 3 need one, blocks 1 and 2 need two; block 4 is none of these.
fn limits() -> Outcome {
    for (counts, limit, due) in [
        ([0, 0, 0, 0, 0], 2, 0),
        ([0, 0, 0, 0, 0], 1, 12),
        ([9, 8, 8, 9, 10], 10, 0),
        ([10, 8, 8, 9, 10], 10, 12),
        ([9, 9, 8, 9, 10], 10, 12),
        ([9, 8, 9, 9, 10], 10, 12),
        ([9, 8, 8, 10, 10], 10, 12),
        ([9, 8, 8, 9, u32::MAX], 10, 0),
    ] {
        let scene = with_counters(&counts, limit);
        for budget in [0, 1, u32::MAX] {
            let request = scene.run_request(0, budget);
            same(&format!("{counts:?} of {limit}"), returned(&request), due)?;
        }
    }
    Ok(())
}

fn widest_limits() -> Outcome {
    const END: u32 = u32::MAX;
    for (counts, due) in [
        ([END - 1, END - 2, END - 2, END - 1], 0),
        ([END, END - 2, END - 2, END - 1], 12),
        ([0, END - 1, 0, 0], 12),
        ([0, END, 0, 0], 12),
        ([0, 0, 0, END], 12),
    ] {
        let scene = with_counters(&counts, END);
        same(
            &format!("{counts:?}"),
            returned(&scene.run_request(0, 1)),
            due,
        )?;
    }
    Ok(())
}

fn places() -> Outcome {
    let mut scene = program_case();
    for place in 0..=12 {
        let mut worn = scene.clone();
        worn.wear_limit = 0;
        worn.wear = vec![255; 265];
        let due = if place == 0 { 12 } else { 0 };
        for budget in [0, 1] {
            let request = worn.run_request(place, budget);
            same(&format!("place {place}"), returned(&request), due)?;
        }
        scene.run(place, 1);
    }
    Ok(())
}

/// A cut inside the first write: the recovery's erase of the spare is counted,
/// and then the spare needs one more than the limit.
fn after_recovery() -> Outcome {
    let mut scene = with_counters(&[4, 0, 0, 0], 5);
    same("at first", returned(&scene.run_request(0, 0)), 0)?;
    tear(&mut scene.flash, (0, 255), |_| vec![7]);
    same("the place", scene.mend().numbers.place, 0)?;
    same("block 0", first_counters(&scene)[0], 5)?;
    let request = scene.run_request(0, 1);
    let refused = answer(&request);
    let due = Numbers {
        returned: 12,
        ..Numbers::default()
    };
    same("after the recovery", refused.numbers, due)?;
    same("the lent parts", refused.parts, request.parts)
}

fn order() -> Outcome {
    let worn = with_counters(&[9; 5], 0).run_request(0, 1);
    let flaws: [(u32, fn(&mut Request)); 6] = [
        (1, |r| r.sizes.n = 65),
        (2, |r| r.parts.wear.truncate(264)),
        (3, |r| r.parts.list[0] = 3),
        (11, |r| r.parts.pins[0] = 1),
        (4, |r| r.parts.sets[0] = 1),
        (5, |r| r.parts.store[0] = 254),
    ];
    same("alone", returned(&worn), 12)?;
    for (due, flaw) in flaws {
        let mut both = worn.clone();
        flaw(&mut both);
        same("the number", returned(&both), due)?;
    }
    Ok(())
}
