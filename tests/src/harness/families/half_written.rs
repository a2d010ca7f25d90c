//! Marks of 3 to 254, at every place and in every slot, alone and in company.

use super::walk::{both_scenes, compare_reads, sizes};
use super::Outcome;
use crate::harness::compare::Comparer;
use crate::random::Random;
use crate::scene::Scene;
use crate::simulator::request::Call;

pub fn cases(comparer: &mut Comparer, random: &mut Random) -> Outcome {
    for (n, m) in [(1, 1), (1, 2), (2, 1), (2, 2), (3, 1)] {
        for s in 0..3 {
            for mut scene in both_scenes(sizes(n, m, 1, s), random) {
                for place in 0..=scene.sizes.steps() as u32 {
                    marked(comparer, &scene, place, random)?;
                    let answer = comparer.compare(&scene.run_request(place, 1))?;
                    scene.take_over(&answer);
                }
            }
        }
    }
    Ok(())
}

/// The store of a place with one such mark in each slot, which lies among
/// letters or pages not written; then with more, in one block or in several.
fn marked(comparer: &mut Comparer, at: &Scene, place: u32, random: &mut Random) -> Outcome {
    for slot in 0..at.sizes.slots() {
        for mark in [3, 254, any_mark(random)] {
            let mut scene = at.clone();
            scene.flash.marks[slot] = mark;
            compare_calls(comparer, &scene, place, random)?;
            for _ in 0..4 {
                let other = random.below(at.sizes.slots());
                scene.flash.marks[other] = any_mark(random);
                compare_calls(comparer, &scene, place, random)?;
            }
        }
    }
    Ok(())
}

fn any_mark(random: &mut Random) -> u8 {
    random.between(3, 254) as u8
}

fn compare_calls(
    comparer: &mut Comparer,
    scene: &Scene,
    place: u32,
    random: &mut Random,
) -> Outcome {
    comparer.compare(&scene.request(Call::Mend))?;
    compare_reads(comparer, scene, 4, random)?;
    comparer.compare(&scene.run_request(place, 1))?;
    Ok(())
}
