//! Whole blocks moved round in one cycle, where a page is the sum of the most
//! others.

use super::walk::{scene_with, sizes, walk};
use super::Outcome;
use crate::harness::compare::Comparer;
use crate::random::Random;

pub fn cases(comparer: &mut Comparer, random: &mut Random) -> Outcome {
    for (n, m) in [(1, 1), (2, 1), (3, 1), (5, 2), (8, 3), (20, 2)] {
        for blocks in 1..=n.min(3) {
            round(comparer, n, m, blocks, random)?;
            round(comparer, n, m, n - blocks, random)?;
        }
    }
    // More reads than 16 bits can count.
    round(comparer, 64, 64, 1, random)
}

/// Each block moves on by this many, and once with drops.
fn round(
    comparer: &mut Comparer,
    n: usize,
    m: usize,
    blocks: usize,
    random: &mut Random,
) -> Outcome {
    let shape = sizes(n, m, 1, random.below(3));
    let mut list: Vec<u16> = (0..shape.originals() as u16).collect();
    list.rotate_left(blocks * m);
    let dropping = random.with_drops(list.clone());
    for list in [list, dropping] {
        let scene = scene_with(shape, list, random);
        comparer.compare(&scene.run_request(0, u32::MAX))?;
        if n < 64 {
            walk(comparer, &scene, 2, 2, random)?;
        }
    }
    Ok(())
}
