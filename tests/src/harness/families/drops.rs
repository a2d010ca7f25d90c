//! Pages to throw away: every choice of them in small lists, and their bytes
//! where a mover could look at them.

use super::other_splits::elsewhere;
use super::walk::{any_bytes, compare_reads, compare_split, sizes, walk};
use super::Outcome;
use crate::harness::compare::Comparer;
use crate::random::{all_with_drops, Random};
use crate::scene::{small_shapes, Scene};
use crate::simulator::request::Call;
use crate::simulator::sizes::UNWRITTEN;
use crate::simulator::steps::marks_at;

pub fn cases(comparer: &mut Comparer, random: &mut Random) -> Outcome {
    every_choice(comparer, random)?;
    entries(comparer, random)?;
    one_page(comparer, random)?;
    foreign_bytes(comparer, random)
}

/// Every list of up to four pages that drops one or more, at every place.
fn every_choice(comparer: &mut Comparer, random: &mut Random) -> Outcome {
    for (n, m) in small_shapes(4) {
        for list in all_with_drops((n * m) as usize) {
            let shape = sizes(n as usize, m as usize, 1, random.below(3));
            let mut scene = any_bytes(shape, list, random);
            compare_split(comparer, &scene, random)?;
            if random.one_in(2) {
                scene.sets = elsewhere(&scene, random);
            }
            walk(comparer, &scene, 1, 4, random)?;
        }
    }
    Ok(())
}

/// Each list of two and of three pages with these entries: n x m, the numbers
/// beside 65535, and those that share a byte with it.
fn entries(comparer: &mut Comparer, random: &mut Random) -> Outcome {
    for (n, m) in [(2, 1), (1, 2), (3, 1), (1, 3)] {
        let shape = sizes(n, m, 1, random.below(3));
        let count = shape.originals();
        let mut entries: Vec<u16> = (0..=count as u16).collect();
        entries.extend([65535, 65534, 65280, 255, 32768]);
        let identity: Vec<u16> = (0..count as u16).collect();
        let mut scene = any_bytes(shape, identity, random);
        for mut code in 0..entries.len().pow(count as u32) {
            for entry in &mut scene.list {
                *entry = entries[code % entries.len()];
                code /= entries.len();
            }
            compare_split(comparer, &scene, random)?;
            comparer.compare(&scene.read_request(random.below(count)))?;
            comparer.compare(&scene.run_request(0, u32::MAX))?;
        }
    }
    Ok(())
}

/// One page dropped, or one kept, in lists of up to 4,096 pages.
fn one_page(comparer: &mut Comparer, random: &mut Random) -> Outcome {
    for (n, m) in [(3, 3), (7, 5), (64, 1), (1, 64), (32, 16), (64, 64)] {
        let shape = sizes(n, m, 2, random.below(3));
        let originals = shape.originals();
        for at in [0, originals - 1, random.below(originals)] {
            let list = random.permutation(originals);
            let mut alone = vec![u16::MAX; originals];
            alone[at] = list[at];
            let mut but_one = list;
            but_one[at] = u16::MAX;
            for list in [alone, but_one] {
                let scene = any_bytes(shape, list, random);
                compare_split(comparer, &scene, random)?;
                comparer.compare(&scene.read_request(at))?;
                walk(comparer, &scene, 1 + shape.steps() / 3, 3, random)?;
            }
        }
    }
    Ok(())
}

/// The marks of every place over bytes that no move has left, and the same marks
/// with other bytes: a dropped page's own never count.
fn foreign_bytes(comparer: &mut Comparer, random: &mut Random) -> Outcome {
    for round in 0..90 {
        let widest = 2 + round / 30;
        let (n, m) = (random.between(1, widest), random.between(1, widest));
        let shape = sizes(n, m, random.between(1, 4), round % 3);
        let list = random.permutation(shape.originals());
        let mut scene = any_bytes(shape, random.with_drops(list), random);
        for place in 0..=shape.steps() {
            scene.flash.marks = marks_at(&shape, place);
            any_store(&mut scene, random);
            compare_reads(comparer, &scene, 9, random)?;
            comparer.compare(&scene.run_request(place as u32, 1))?;
            comparer.compare(&scene.run_request(place as u32, u32::MAX))?;
            // Marks that fit no moment, or another: the refusal comes first.
            let slot = random.below(shape.slots());
            scene.flash.marks[slot] = *random.pick(&[0, 1, 2, UNWRITTEN]);
            compare_reads(comparer, &scene, 4, random)?;
            comparer.compare(&scene.request(Call::Mend))?;
        }
    }
    Ok(())
}

fn any_store(scene: &mut Scene, random: &mut Random) {
    for slot in 0..scene.sizes.slots() {
        let mark = scene.flash.marks[slot];
        let bytes = match mark {
            UNWRITTEN => vec![255; scene.sizes.bytes()],
            _ => random.bytes(scene.sizes.bytes()),
        };
        scene.flash.put_page(slot, mark, &bytes);
    }
}
