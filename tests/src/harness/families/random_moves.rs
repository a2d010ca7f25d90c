//! Random moves of growing sizes.

use super::walk::{compare_split, random_scene, sizes, walk};
use super::Outcome;
use crate::harness::compare::Comparer;
use crate::random::Random;

pub fn cases(comparer: &mut Comparer, random: &mut Random) -> Outcome {
    for round in 0..100 {
        let widest = 3 + round / 8;
        let shape = sizes(
            random.between(1, widest),
            random.between(1, widest),
            1 + round % 8,
            random.below(3),
        );
        let scene = random_scene(shape, random);
        compare_split(comparer, &scene, random)?;
        walk(comparer, &scene, shape.pages() + 2, 3, random)?;
    }
    for _ in 0..8 {
        let shape = sizes(
            random.between(16, 64),
            random.between(16, 64),
            1,
            random.below(3),
        );
        let scene = random_scene(shape, random);
        compare_split(comparer, &scene, random)?;
        walk(comparer, &scene, shape.steps() / 6, 3, random)?;
    }
    Ok(())
}
