//! Pinned pages: which lists they refuse, and what is looked for before and after.

use super::refusals::flaws;
use super::walk::{any_bytes, compare_reads, compare_split, sizes, walk};
use super::Outcome;
use crate::harness::compare::Comparer;
use crate::random::{small_lists, Random};
use crate::scene::{small_shapes, Scene};
use crate::simulator::request::Call;

pub fn cases(comparer: &mut Comparer, random: &mut Random) -> Outcome {
    every_choice(comparer, random)?;
    one_page(comparer, random)?;
    neighbours(comparer, random)?;
    moves(comparer, random)
}

fn compare_calls(comparer: &mut Comparer, scene: &Scene) -> Outcome {
    comparer.compare(&scene.request(Call::Split))?;
    comparer.compare(&scene.run_request(0, 1))?;
    comparer.compare(&scene.read_request(0))?;
    comparer.compare(&scene.rebuild_request(0))?;
    Ok(())
}

/// Every list of up to four pages with every choice of pinned pages.
fn every_choice(comparer: &mut Comparer, random: &mut Random) -> Outcome {
    for (n, m) in small_shapes(4) {
        for list in small_lists((n * m) as usize, 4, random) {
            let shape = sizes(n as usize, m as usize, 1, random.below(3));
            let mut scene = any_bytes(shape, list, random);
            for choice in 0..1 << shape.originals() {
                for (k, pin) in scene.pins.iter_mut().enumerate() {
                    let byte = *random.pick(&[1, 2, 128, 255]);
                    *pin = if choice >> k & 1 == 1 { byte } else { 0 };
                }
                compare_calls(comparer, &scene)?;
            }
        }
    }
    Ok(())
}

/// Two pages trade places: one of them pinned, and then every page but those;
/// at last the first is dropped and pinned too. Two pages 256 apart have numbers
/// with the same low byte.
fn one_page(comparer: &mut Comparer, random: &mut Random) -> Outcome {
    let shapes = [(3, 3), (7, 5), (16, 4), (13, 5), (32, 16), (64, 64)];
    for (n, m) in shapes {
        let shape = sizes(n, m, 1, random.below(3));
        let originals = shape.originals();
        for round in 0..60 {
            let at = match round {
                0 => 0,
                1 => originals - 1,
                _ => random.below(originals),
            };
            let other = match round % 3 {
                0 if originals > 256 => (at + 256) % originals,
                _ => (at + random.between(1, originals - 1)) % originals,
            };
            let mut list: Vec<u16> = (0..originals as u16).collect();
            list.swap(at, other);
            let mut scene = any_bytes(shape, list, random);
            scene.pins = vec![0; originals];
            scene.pins[at] = *random.pick(&[1, 2, 16, 128, 255]);
            compare_calls(comparer, &scene)?;
            scene.pins = random.bytes(originals);
            (scene.pins[at], scene.pins[other]) = (0, 0);
            compare_calls(comparer, &scene)?;
            scene.list[at] = u16::MAX;
            scene.pins[at] = 1;
            compare_calls(comparer, &scene)?;
        }
    }
    Ok(())
}

/// A list that moves a pinned page, or drops it, in mid-move, with every other flaw
/// beside it.
fn neighbours(comparer: &mut Comparer, random: &mut Random) -> Outcome {
    let shapes = [(2, 1, 1), (2, 2, 2), (3, 2, 1), (1, 4, 1)];
    for ((n, m, bytes), drops) in shapes
        .into_iter()
        .flat_map(|shape| [(shape, false), (shape, true)])
    {
        let shape = sizes(n, m, bytes, random.below(3));
        let mut list: Vec<u16> = (0..shape.originals() as u16).rev().collect();
        if drops {
            list[0] = u16::MAX;
        }
        let mut scene = any_bytes(shape, list, random);
        let place = random.below(shape.steps() + 1) as u32;
        scene.run(0, place);
        scene.pins[0] = *random.pick(&[1, 77, 255]);
        for call in [Call::Split, Call::Run, Call::Read, Call::Rebuild] {
            let mut request = scene.request(call);
            request.place = place;
            comparer.compare(&request)?;
            for flaw in flaws(&request) {
                let mut flawed = request.clone();
                flaw(&mut flawed);
                comparer.compare(&flawed)?;
            }
        }
    }
    Ok(())
}

/// Whole moves with all pages pinned that stay, which travel like the others.
fn moves(comparer: &mut Comparer, random: &mut Random) -> Outcome {
    for round in 0..150 {
        let widest = 2 + round / 15;
        let (n, m) = (random.between(1, widest), random.between(1, widest));
        let shape = sizes(n, m, random.between(1, 5), round % 3);
        let list = random.keeping(shape.originals());
        let mut scene = any_bytes(shape, random.dropping(list), random);
        for k in 0..shape.originals() {
            let stays = scene.list[k] as usize == k;
            scene.pins[k] = if stays { 1 + random.byte() % 255 } else { 0 };
        }
        compare_split(comparer, &scene, random)?;
        compare_reads(comparer, &scene, 3, random)?;
        walk(comparer, &scene, m + 2, 3, random)?;
    }
    Ok(())
}
