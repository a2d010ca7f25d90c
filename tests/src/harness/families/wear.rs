//! Erase counters: what each call counts, and when a run is refused for them.

use super::refusals::flaws;
use super::walk::{any_record, random_scene, sizes};
use super::Outcome;
use crate::harness::compare::Comparer;
use crate::random::Random;
use crate::scene::Scene;
use crate::simulator::request::Call;
use crate::simulator::rules::Correct;
use crate::simulator::wear::{record, COUNTERS};

pub fn cases(comparer: &mut Comparer, random: &mut Random) -> Outcome {
    for (n, m) in [
        (1, 1),
        (1, 2),
        (2, 1),
        (2, 2),
        (3, 1),
        (4, 3),
        (63, 1),
        (64, 2),
    ] {
        let scene = random_scene(sizes(n, m, 1, random.below(3)), random);
        limits(comparer, &scene, random)?;
        other_places(comparer, &scene, random)?;
        neighbours(comparer, &scene)?;
        recovered(comparer, &scene, random)?;
        lengths(comparer, &scene)?;
    }
    moves(comparer, random)
}

/// How often an uncut move erases a block, by its place in the store.
fn erases(scene: &Scene, block: usize) -> u32 {
    let ends = block == 0 || block == scene.sizes.data_blocks();
    if ends {
        1
    } else {
        2
    }
}

/// For each block, and one above, the limit just kept and passed by one or more,
/// where the counters begin, in their middle, and where they end; the other
/// blocks have room, or none of them has.
fn limits(comparer: &mut Comparer, at_rest: &Scene, random: &mut Random) -> Outcome {
    let n = at_rest.sizes.data_blocks();
    let mut scene = at_rest.clone();
    for block in (0..COUNTERS).filter(|&block| block <= n + 1 || block == COUNTERS - 1) {
        let middle = random.between(1 << 16, 1 << 31) as u32;
        let erases = erases(at_rest, block);
        for limit in [erases, 2, 255, 256, middle, u32::MAX - 1, u32::MAX] {
            for others in [0, limit.saturating_sub(2)] {
                let kept = limit.saturating_sub(erases);
                for count in [
                    kept.saturating_sub(1),
                    kept,
                    kept.saturating_add(1),
                    u32::MAX,
                ] {
                    let mut counters = vec![others; COUNTERS];
                    counters[n + 1..].fill(random.number() as u32);
                    counters[block] = count;
                    scene.wear = record::<Correct>(&counters);
                    scene.wear_limit = limit;
                    // Whole moves of many blocks take their time.
                    let most = if n > 4 { 1 } else { u32::MAX };
                    let budget = *random.pick(&[0, 1, most]);
                    comparer.compare(&scene.run_request(0, budget))?;
                }
            }
        }
    }
    // With no limit to speak of, and with none left.
    for limit in [0, 1, 2] {
        scene.wear = record::<Correct>(&[0; COUNTERS]);
        scene.wear_limit = limit;
        comparer.compare(&scene.run_request(0, u32::MAX))?;
    }
    Ok(())
}

/// From every place, or many of them, and 0 among these, with any record and with limits that it
/// passes; full counters stay where they are.
fn other_places(comparer: &mut Comparer, at_rest: &Scene, random: &mut Random) -> Outcome {
    let mut scene = at_rest.clone();
    let end = scene.sizes.steps() as u32;
    let stride = 1 + end / 60;
    for place in 0..=end {
        for _ in 0..if place % stride == 0 { 3 } else { 0 } {
            let mut lent = scene.clone();
            lent.wear = any_record(random);
            lent.wear_limit = *random.pick(&[0, 1, 300, u32::MAX]);
            comparer.compare(&lent.run_request(place, *random.pick(&[0, 1, 3])))?;
            comparer.compare(&lent.run_request(place, u32::MAX))?;
            comparer.compare(&lent.request(Call::Mend))?;
        }
        scene.run(place, 1);
    }
    Ok(())
}

/// A run that is refused for wear, with every other flaw beside it.
fn neighbours(comparer: &mut Comparer, at_rest: &Scene) -> Outcome {
    let mut scene = at_rest.clone();
    scene.wear_limit = 0;
    let request = scene.run_request(0, 1);
    for flaw in flaws(&request) {
        let mut flawed = request.clone();
        flaw(&mut flawed);
        comparer.compare(&flawed)?;
        flawed.parts.wear.fill(255);
        comparer.compare(&flawed)?;
    }
    Ok(())
}

/// Records of fewer and more counters, of as many as there are blocks among them.
fn lengths(comparer: &mut Comparer, at_rest: &Scene) -> Outcome {
    let mut scene = at_rest.clone();
    let blocks = scene.sizes.data_blocks() + 1;
    for length in [
        0,
        4,
        5,
        4 * blocks,
        4 * blocks + 5,
        260,
        261,
        264,
        265,
        266,
        269,
        530,
    ] {
        scene.wear = vec![0; length];
        comparer.compare(&scene.run_request(0, 1))?;
        comparer.compare(&scene.request(Call::Mend))?;
        comparer.compare(&scene.request(Call::Refresh))?;
    }
    Ok(())
}

/// A recovery that goes back to place 0 has counted an erase of the spare: the
/// limit that the first run kept may be passed now.
fn recovered(comparer: &mut Comparer, at_rest: &Scene, random: &mut Random) -> Outcome {
    let pages = at_rest.sizes.pages();
    for written in 0..pages {
        for room in 0..3 {
            let mut scene = at_rest.clone();
            let mut counters = vec![7; COUNTERS];
            counters[0] = 9 - room;
            scene.wear = record::<Correct>(&counters);
            scene.wear_limit = 10;
            let begun = comparer.compare(&scene.run_request(0, written as u32))?;
            scene.take_over(&begun);
            for _ in 0..2 {
                let mended = comparer.compare(&scene.request(Call::Mend))?;
                scene.take_over(&mended);
                let budget = *random.pick(&[0, 1, u32::MAX]);
                comparer.compare(&scene.run_request(mended.numbers.place, budget))?;
            }
        }
    }
    Ok(())
}

/// Whole moves with a record carried from call to call, its bytes all of them
/// at work, and limits that are kept, just kept, or passed.
fn moves(comparer: &mut Comparer, random: &mut Random) -> Outcome {
    for round in 0..200 {
        let widest = 2 + round / 12;
        let (n, m) = (random.between(1, widest), random.between(1, widest.min(6)));
        let mut scene = random_scene(sizes(n, m, 1, round % 3), random);
        let mut counters: Vec<u32> = (0..COUNTERS)
            .map(|_| match random.below(3) {
                0 => random.number() as u32,
                // An erase or two carry into the next byte.
                1 => (random.number() as u32) << 8 | 255,
                _ => (random.number() as u32) << 16 | 0xffff,
            })
            .map(|count| count.min(u32::MAX - 9))
            .collect();
        counters[n + 1..].fill(u32::MAX);
        let needs = |block: usize| counters[block] + erases(&scene, block);
        let needed = (0..=n).map(needs).max().unwrap_or(0);
        scene.wear = record::<Correct>(&counters);
        scene.wear_limit = needed - random.below(2) as u32;
        comparer.compare(&scene.run_request(0, u32::MAX))?;
        scene.wear_limit = needed;
        let mut place = 0;
        while place < scene.sizes.steps() as u32 {
            let budget = random.between(1, m + 2) as u32;
            let answer = comparer.compare(&scene.run_request(place, budget))?;
            scene.take_over(&answer);
            place = answer.numbers.place;
            comparer.compare(&scene.request(Call::Mend))?;
        }
        comparer.compare(&scene.run_request(place, 1))?;
    }
    Ok(())
}
