//! The highest counter kept at hand: what each erase does to the pair, and the
//! call that makes it afresh.

use super::walk::{any_record, random_scene, sizes};
use super::Outcome;
use crate::harness::compare::Comparer;
use crate::random::Random;
use crate::scene::Scene;
use crate::simulator::request::Call;
use crate::simulator::rules::Correct;
use crate::simulator::wear::{record, record_with, COUNTERS};

pub fn cases(comparer: &mut Comparer, random: &mut Random) -> Outcome {
    for (n, m) in [(1, 1), (2, 1), (3, 2), (5, 1), (64, 1)] {
        let scene = random_scene(sizes(n, m, 1, random.below(3)), random);
        every_pair(comparer, &scene, random)?;
    }
    afresh(comparer, random)?;
    moves(comparer, random)
}

/// Before each erase of a move, of long ones the first and the last of each
/// pass, and before a recovery, every pair around the
/// count that the block will have: below it, equal, above it; its block below,
/// the same, above, and none that there is.
fn every_pair(comparer: &mut Comparer, at_rest: &Scene, random: &mut Random) -> Outcome {
    let pages = at_rest.sizes.pages();
    let mut scene = at_rest.clone();
    scene.wear_limit = u32::MAX;
    let n = scene.sizes.data_blocks();
    let few = |turn: &usize| n <= 5 || [0, n - 1, n, 2 * n - 1].contains(turn);
    for turn in (0..2 * n).filter(few) {
        let place = turn * (pages + 1) + pages;
        let mut before = at_rest.clone();
        before.wear_limit = u32::MAX;
        before.wear = vec![0; before.wear.len()];
        before.run(0, place as u32);
        scene.flash = before.flash;
        for count in [0, 7, 255, u32::MAX - 1, u32::MAX] {
            let counters = vec![count; COUNTERS];
            let after = count.saturating_add(1);
            for highest in [0, after.saturating_sub(1), after, after.saturating_add(1)] {
                let other = random.byte();
                for block in [0, 1, 2, 3, 4, 63, 64, 65, 255, other] {
                    scene.wear = record_with::<Correct>(&counters, (highest, block));
                    let most = if n > 5 { 4 } else { u32::MAX };
                    let budget = *random.pick(&[1, 2, most]);
                    comparer.compare(&scene.run_request(place as u32, budget))?;
                    comparer.compare(&scene.request(Call::Mend))?;
                    let mut torn = scene.clone();
                    torn.flash
                        .erase(random.below(scene.sizes.data_blocks() + 1));
                    comparer.compare(&torn.request(Call::Mend))?;
                }
            }
        }
    }
    Ok(())
}

/// Counters of which one, two or all are the highest, with any pair before.
fn afresh(comparer: &mut Comparer, random: &mut Random) -> Outcome {
    let scene = random_scene(sizes(2, 1, 1, 0), random);
    let mut compare = |wear: Vec<u8>| {
        let request = Scene {
            wear,
            ..scene.clone()
        };
        comparer.compare(&request.request(Call::Refresh))
    };
    for highest in [1, 256, 1 << 24, u32::MAX] {
        for first in 0..COUNTERS {
            for second in [first, 0, 64, random.below(COUNTERS)] {
                let mut counters: Vec<u32> = (0..COUNTERS)
                    .map(|_| random.below(highest as usize) as u32)
                    .collect();
                (counters[first], counters[second]) = (highest, highest);
                let pair = (random.number() as u32, random.byte());
                compare(record_with::<Correct>(&counters, pair))?;
                compare(record::<Correct>(&counters))?;
            }
        }
    }
    for count in [0, 1, u32::MAX] {
        compare(record_with::<Correct>(&[count; COUNTERS], (9, 9)))?;
    }
    for _ in 0..2000 {
        compare(any_record(random))?;
    }
    Ok(())
}

/// Whole moves from a right pair and from a wrong one, with few counts, so that
/// blocks overtake each other; the pair made afresh now and then.
fn moves(comparer: &mut Comparer, random: &mut Random) -> Outcome {
    for round in 0..200 {
        let widest = 2 + round / 20;
        let (n, m) = (random.between(1, widest), random.between(1, 3));
        let mut scene = random_scene(sizes(n, m, 1, round % 3), random);
        let few = *random.pick(&[1, 2, 4]);
        let counters: Vec<u32> = (0..COUNTERS).map(|_| random.below(few) as u32).collect();
        scene.wear = match random.one_in(2) {
            true => record::<Correct>(&counters),
            false => {
                let pair = (random.below(few + 2) as u32, random.byte());
                record_with::<Correct>(&counters, pair)
            }
        };
        scene.wear_limit = u32::MAX;
        let mut place = 0;
        while place < scene.sizes.steps() as u32 {
            let budget = random.between(1, 2 * m + 2) as u32;
            let answer = comparer.compare(&scene.run_request(place, budget))?;
            scene.take_over(&answer);
            place = answer.numbers.place;
            let mended = comparer.compare(&scene.request(Call::Mend))?;
            let afresh = comparer.compare(&scene.request(Call::Refresh))?;
            match random.below(8) {
                0 => scene.wear = afresh.parts.wear,
                1 => scene.wear = mended.parts.wear,
                _ => {}
            }
        }
    }
    Ok(())
}
