//! All small lists, step by step and in one run.

use super::walk::{compare_split, scene_with, sizes, walk};
use super::Outcome;
use crate::harness::compare::Comparer;
use crate::random::{small_lists, Random};
use crate::scene::small_shapes;

pub fn cases(comparer: &mut Comparer, random: &mut Random) -> Outcome {
    for (n, m) in small_shapes(6) {
        let reads = if n * m <= 4 { 4 } else { 1 };
        for list in small_lists((n * m) as usize, 4, random) {
            let shape = sizes(
                n as usize,
                m as usize,
                random.between(1, 3),
                random.below(3),
            );
            let scene = scene_with(shape, list, random);
            compare_split(comparer, &scene, random)?;
            comparer.compare(&scene.run_request(0, 0))?;
            comparer.compare(&scene.run_request(0, u32::MAX))?;
            walk(comparer, &scene, 1, reads, random)?;
        }
    }
    Ok(())
}
