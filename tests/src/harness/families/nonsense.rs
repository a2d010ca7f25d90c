//! Stores and marks that no move has left.

use super::walk::{both_scenes, compare_reads, random_scene, sizes};
use super::Outcome;
use crate::harness::compare::Comparer;
use crate::random::Random;
use crate::scene::Scene;
use crate::simulator::request::Call;
use crate::simulator::sizes::UNWRITTEN;
use crate::simulator::steps::marks_at;

const MARKS: [u8; 6] = [0, 1, 2, 255, 3, 254];

/// Every marking of small stores, for recovery, read and run.
pub fn all_marks(comparer: &mut Comparer, random: &mut Random) -> Outcome {
    for (n, m) in [(1, 1), (2, 1), (1, 2), (3, 1)] {
        for s in 0..=2 {
            for scene in both_scenes(sizes(n, m, 1, s), random) {
                every_marking(comparer, scene, random)?;
            }
        }
    }
    Ok(())
}

fn every_marking(comparer: &mut Comparer, mut scene: Scene, random: &mut Random) -> Outcome {
    for mut code in 0..MARKS.len().pow(scene.sizes.slots() as u32) {
        for mark in &mut scene.flash.marks {
            *mark = MARKS[code % MARKS.len()];
            code /= MARKS.len();
        }
        scene.flash.store = random.bytes(scene.sizes.slots());
        comparer.compare(&scene.request(Call::Mend))?;
        compare_reads(comparer, &scene, 6, random)?;
        let place = random.below(scene.sizes.steps() + 3) as u32;
        comparer.compare(&scene.run_request(place, 1))?;
    }
    Ok(())
}

pub fn cases(comparer: &mut Comparer, random: &mut Random) -> Outcome {
    for round in 0..400 {
        let widest = 2 + round / 80;
        let shape = sizes(
            random.between(1, widest),
            random.between(1, widest),
            random.between(1, 8),
            random.below(3),
        );
        let mut scene = random_scene(shape, random);
        let place = random.below(shape.steps() + 1);
        nonsense_bytes(&mut scene, place, random);
        compare_from(comparer, &scene, place, random)?;
        other_places(comparer, &scene, random)?;
        for _ in 0..6 {
            wrong_mark(&mut scene, random);
            compare_from(comparer, &scene, place, random)?;
        }
    }
    Ok(())
}

/// The marks of a place over bytes that mean nothing; pages not written are
/// blank, so that a run takes them.
pub fn nonsense_bytes(scene: &mut Scene, place: usize, random: &mut Random) {
    scene.flash.marks = marks_at(&scene.sizes, place);
    for slot in 0..scene.sizes.slots() {
        let mark = scene.flash.marks[slot];
        let bytes = match mark {
            UNWRITTEN => vec![255; scene.sizes.bytes()],
            _ if random.one_in(4) => vec![255; scene.sizes.bytes()],
            _ => random.bytes(scene.sizes.bytes()),
        };
        scene.flash.put_page(slot, mark, &bytes);
    }
}

fn compare_from(
    comparer: &mut Comparer,
    scene: &Scene,
    place: usize,
    random: &mut Random,
) -> Outcome {
    comparer.compare(&scene.request(Call::Mend))?;
    compare_reads(comparer, scene, 4, random)?;
    let some = random.below(scene.sizes.steps() + 2) as u32;
    for budget in [0, 1, some, u32::MAX] {
        comparer.compare(&scene.run_request(place as u32, budget))?;
    }
    Ok(())
}

/// All places from 0 to two past the end, and the biggest number.
fn other_places(comparer: &mut Comparer, scene: &Scene, random: &mut Random) -> Outcome {
    let end = scene.sizes.steps() as u32;
    for place in (0..=end + 2).chain([u32::MAX]) {
        let budget = *random.pick(&[0, 1, 2, u32::MAX]);
        comparer.compare(&scene.run_request(place, budget))?;
    }
    Ok(())
}

/// One mark changed, or one byte of a page not written.
pub fn wrong_mark(scene: &mut Scene, random: &mut Random) {
    let slot = random.below(scene.sizes.slots());
    if scene.flash.marks[slot] == UNWRITTEN && random.one_in(2) {
        let byte = slot * scene.sizes.bytes() + random.below(scene.sizes.bytes());
        scene.flash.store[byte] = random.byte();
    } else {
        let half_written = random.between(3, 254) as u8;
        scene.flash.marks[slot] = *random.pick(&[0, 1, 2, 255, 3, 254, half_written]);
    }
}
