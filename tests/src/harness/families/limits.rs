//! Moves at the limits of the sizes, with lists of every kind.

use super::walk::{both_scenes, compare_split, scene_with, sizes, walk};
use super::Outcome;
use crate::harness::compare::Comparer;
use crate::random::Random;
use crate::simulator::request::Call;

pub fn cases(comparer: &mut Comparer, random: &mut Random) -> Outcome {
    let shapes = [
        (1, 1, 4096),
        (2, 2, 4096),
        (3, 1, 4096),
        (64, 1, 1),
        (64, 1, 8),
        (1, 64, 1),
        (1, 64, 8),
        (64, 64, 1),
    ];
    for (n, m, bytes) in shapes {
        let shape = sizes(n, m, bytes, random.below(3));
        for list in lists(shape.originals(), random) {
            let dropping = random.with_drops(list.clone());
            for list in [list, dropping] {
                let scene = scene_with(shape, list, random);
                compare_split(comparer, &scene, random)?;
                walk(comparer, &scene, 1 + shape.steps() / 4, 3, random)?;
            }
        }
    }
    Ok(())
}

/// Identity, reversed, moved on by one page, and random.
fn lists(originals: usize, random: &mut Random) -> Vec<Vec<u16>> {
    let identity: Vec<u16> = (0..originals as u16).collect();
    let mut reversed = identity.clone();
    reversed.reverse();
    let mut moved_on = identity.clone();
    moved_on.rotate_left(1);
    vec![identity, reversed, moved_on, random.permutation(originals)]
}

/// Every size at its limit; few calls, since each has 17 megabytes to compare.
pub fn biggest_store(comparer: &mut Comparer, random: &mut Random) -> Outcome {
    let shape = sizes(64, 64, 4096, 2);
    for mut scene in both_scenes(shape, random) {
        compare_split(comparer, &scene, random)?;
        let half = random.between(1, shape.steps()) as u32;
        let answer = comparer.compare(&scene.run_request(0, half))?;
        scene.take_over(&answer);
        comparer.compare(&scene.read_request(random.below(shape.originals())))?;
        comparer.compare(&scene.request(Call::Mend))?;
        comparer.compare(&scene.run_request(answer.numbers.place, u32::MAX))?;
    }
    Ok(())
}
