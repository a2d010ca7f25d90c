//! Originals rebuilt without one page, which may be any slot, at every place and
//! after every cut.

use super::nonsense::{nonsense_bytes, wrong_mark};
use super::other_splits::elsewhere;
use super::walk::{any_bytes, kept_list, scene_with, sizes};
use super::Outcome;
use crate::harness::compare::Comparer;
use crate::harness::tears::Begun;
use crate::random::{all_permutations, Random};
use crate::scene::{small_shapes, Scene};
use crate::simulator::calls::move_of;
use crate::simulator::cuts::{any_torn_mark, tear, torn_choices, Torn};
use crate::simulator::dropping::stored;
use crate::simulator::reading::terms_of;
use crate::simulator::request::Call;
use crate::simulator::rules::Correct;
use crate::simulator::sizes::Sizes;
use crate::simulator::steps::all_steps;

pub fn cases(comparer: &mut Comparer, random: &mut Random) -> Outcome {
    every_small(comparer, random)?;
    nonsense(comparer, random)?;
    bigger(comparer, random)?;
    biggest(comparer, random)
}

/// Every list of up to four pages at every place, whole and torn in every way;
/// those of five and six pages at some places.
fn every_small(comparer: &mut Comparer, random: &mut Random) -> Outcome {
    for (n, m) in small_shapes(6) {
        for list in all_permutations((n * m) as usize) {
            let shape = sizes(n as usize, m as usize, 1, random.below(3));
            let mut scene = any_bytes(shape, list, random);
            if random.one_in(3) {
                scene.sets = elsewhere(&scene, random);
            }
            if n * m <= 4 {
                every_place(comparer, scene, random)?;
            } else {
                let place = random.below(shape.steps());
                scene.run(0, place as u32);
                at_place(comparer, &scene, random)?;
                let choices = choices(&scene, place, random);
                let pages: &Vec<Torn> = random.pick(&choices);
                torn(comparer, &scene, pages, random)?;
            }
        }
    }
    Ok(())
}

fn choices(scene: &Scene, place: usize, random: &mut Random) -> Vec<Vec<Torn>> {
    match all_steps(&scene.sizes).get(place) {
        Some(&step) => torn_choices(&scene.flash, step, &[any_torn_mark(random)]),
        None => vec![],
    }
}

fn every_place(comparer: &mut Comparer, mut scene: Scene, random: &mut Random) -> Outcome {
    for place in 0..=scene.sizes.steps() {
        at_place(comparer, &scene, random)?;
        for pages in choices(&scene, place, random) {
            torn(comparer, &scene, &pages, random)?;
        }
        scene.run(place as u32, 1);
    }
    Ok(())
}

/// With each slot, and one that there is not.
fn at_place(comparer: &mut Comparer, scene: &Scene, random: &mut Random) -> Outcome {
    (0..=scene.sizes.slots()).try_for_each(|slot| compare(comparer, scene, slot, random))
}

/// The same with these pages torn.
fn torn(comparer: &mut Comparer, scene: &Scene, pages: &[Torn], random: &mut Random) -> Outcome {
    let mut scene = scene.clone();
    for &page in pages {
        tear(&mut scene.flash, page, |before| match random.below(3) {
            0 => before.to_vec(),
            1 => vec![255; before.len()],
            _ => random.bytes(before.len()),
        });
    }
    at_place(comparer, &scene, random)
}

/// What the areas hold before is nothing to the call.
fn compare(comparer: &mut Comparer, scene: &Scene, slot: usize, random: &mut Random) -> Outcome {
    let mut request = scene.rebuild_request(slot);
    for byte in request
        .parts
        .flags
        .iter_mut()
        .chain(&mut request.parts.area)
    {
        *byte = random.byte();
    }
    comparer.compare(&request)?;
    Ok(())
}

/// The marks of a place over any bytes, where two sums for one original differ;
/// the same with marks that are half written, or fit no moment.
fn nonsense(comparer: &mut Comparer, random: &mut Random) -> Outcome {
    for round in 0..300 {
        let widest = 2 + round / 60;
        let (n, m) = (random.between(1, widest), random.between(1, widest.min(4)));
        let shape = sizes(n, m, random.between(1, 4), round % 3);
        let list = kept_list(&shape, random);
        let mut scene = scene_with(shape, list, random);
        let place = random.below(shape.steps() + 1);
        nonsense_bytes(&mut scene, place, random);
        at_place(comparer, &scene, random)?;
        for _ in 0..2 {
            wrong_mark(&mut scene, random);
            at_place(comparer, &scene, random)?;
        }
    }
    Ok(())
}

fn bigger(comparer: &mut Comparer, random: &mut Random) -> Outcome {
    for round in 0..120 {
        let widest = 3 + round / 12;
        let (n, m) = (random.between(2, widest), random.between(1, widest.min(8)));
        let shape = sizes(n, m, random.between(1, 9), round % 3);
        at_random(comparer, shape, 6, random)?;
    }
    Ok(())
}

/// Up to the limits of the sizes.
fn biggest(comparer: &mut Comparer, random: &mut Random) -> Outcome {
    for (n, m, bytes) in [
        (64, 1, 5),
        (63, 2, 1),
        (1, 64, 3),
        (40, 40, 1),
        (64, 64, 1),
        (2, 2, 4096),
    ] {
        at_random(comparer, sizes(n, m, bytes, random.below(3)), 3, random)?;
    }
    Ok(())
}

/// A move at places between blocks, where a page more than needed is stored, and
/// at others, whole and torn; with slots that a read sums, and any.
fn at_random(comparer: &mut Comparer, shape: Sizes, most: usize, random: &mut Random) -> Outcome {
    let list = kept_list(&shape, random);
    let mut scene = scene_with(shape, list, random);
    if random.one_in(2) {
        scene.sets = elsewhere(&scene, random);
    }
    let turn = random.below(2 * shape.data_blocks());
    let between = turn * (shape.pages() + 1) + shape.pages();
    let mut reached = 0;
    for place in [between, between + 1 + random.below(shape.pages())] {
        let place = place.min(shape.steps());
        scene.run(reached as u32, (place - reached) as u32);
        reached = place;
        let mut here = scene.clone();
        let step = all_steps(&shape).get(place).copied();
        if let Some(step) = step.filter(|_| random.one_in(2)) {
            Begun::random(&scene.flash, step, random).tear(&mut here.flash);
        }
        let moves = move_of::<Correct>(&here.request(Call::Rebuild));
        for _ in 0..most {
            let original = random.below(shape.originals());
            let summed = stored(&terms_of::<Correct>(&moves, &here.flash, original));
            compare(comparer, &here, *random.pick(&summed), random)?;
            compare(comparer, &here, random.below(shape.slots()), random)?;
        }
    }
    Ok(())
}
