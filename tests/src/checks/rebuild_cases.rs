//! What is rebuilt without one page: by hand, and against every store at rest.

use super::tally::{ensure, same, Tally};
use crate::random::{all_permutations, Random};
use crate::scene::{small_shapes, Scene};
use crate::simulator::calls::{answer, move_of};
use crate::simulator::cuts::{any_torn_mark, tear, torn_choices};
use crate::simulator::dropping::stored;
use crate::simulator::flash::Flash;
use crate::simulator::reading::terms_of;
use crate::simulator::rebuilding::sums_at;
use crate::simulator::recovery::find;
use crate::simulator::request::Call;
use crate::simulator::rules::Correct;
use crate::simulator::sizes::Sizes;
use crate::simulator::steps::all_steps;

type Outcome = Result<(), String>;

pub fn check(tally: &mut Tally, random: &mut Random) {
    tally.check("rebuilt in the program's case", by_hand());
    tally.check("rebuilt from nonsense", nonsense());
    for (n, m) in small_shapes(5) {
        let lists = all_permutations((n * m) as usize).into_iter();
        let outcome = lists.enumerate().try_for_each(|(index, list)| {
            // Of the longer lists every eighth.
            match n * m == 5 && index % 8 != 0 {
                true => Ok(()),
                false => every_slot(n, m, list, random),
            }
        });
        tally.check(&format!("rebuilt with n = {n}, m = {m}"), outcome);
    }
}

fn sizes(n: u32, m: u32, page_bytes: u32, s: u32) -> Sizes {
    Sizes {
        n,
        m,
        page_bytes,
        s,
    }
}

fn gives(scene: &Scene, slot: usize, area: [u8; 3], flags: [u8; 3]) -> Outcome {
    let given = answer(&scene.rebuild_request(slot));
    same("the number", given.numbers.returned, 0)?;
    same(
        &format!("pages and bytes without slot {slot}"),
        (&given.parts.area[..], &given.parts.flags[..]),
        (&area[..], &flags[..]),
    )
}

/// With c(1) written block 1 is not needed, and block 2 is; once block 1 is
/// erased, all else is.
fn by_hand() -> Outcome {
    let mut scene = Scene::at_rest(sizes(3, 1, 1, 0), vec![1, 2, 0], vec![1, 2, 4]);
    gives(&scene, 0, [1, 2, 4], [1, 1, 1])?;
    gives(&scene, 1, [255, 2, 4], [0, 1, 1])?;
    scene.run(0, 1);
    for slot in [0, 1, 3] {
        gives(&scene, slot, [1, 2, 4], [1, 1, 1])?;
    }
    gives(&scene, 2, [1, 255, 4], [1, 0, 1])?;
    scene.run(1, 1);
    gives(&scene, 0, [255, 2, 4], [0, 1, 1])?;
    gives(&scene, 1, [1, 2, 4], [1, 1, 1])?;
    gives(&scene, 2, [1, 255, 4], [1, 0, 1])?;
    gives(&scene, 3, [255, 2, 255], [0, 1, 0])?;
    let refused = answer(&scene.rebuild_request(4));
    same("slot 4", refused.numbers.returned, 7)
}

/// Read's sum comes first, and the other where it cannot be had.
fn nonsense() -> Outcome {
    let mut scene = Scene::at_rest(sizes(3, 1, 1, 0), vec![1, 2, 0], vec![1, 2, 4]);
    scene.run(0, 1);
    scene.flash.put_page(0, 1, &[0x77]);
    gives(&scene, 2, [1, 255, 4], [1, 0, 1])?;
    gives(&scene, 1, [0x77 ^ 4, 2, 4], [1, 1, 1])?;
    gives(&scene, 3, [1, 2, 0x77 ^ 1], [1, 1, 1])
}

/// At every place and after every cut there, without each slot.
fn every_slot(n: u32, m: u32, list: Vec<u16>, random: &mut Random) -> Outcome {
    let shape = sizes(n, m, 1, random.below(3) as u32);
    // A bit for each original, so that a store tells what it is the sum of.
    let bits = (0..shape.originals()).map(|k| 1 << k).collect();
    let mut scene = Scene::at_rest(shape, list, bits);
    let mut states = vec![scene.flash.clone()];
    for place in 0..shape.steps() {
        scene.run(place as u32, 1);
        states.push(scene.flash.clone());
    }
    for place in 0..=shape.steps() {
        let mut cuts = vec![vec![]];
        if let Some(&step) = all_steps(&shape).get(place) {
            let mark = any_torn_mark(random);
            cuts.extend(torn_choices(&states[place], step, &[mark]));
        }
        for torn in cuts {
            scene.flash = states[place].clone();
            for &page in &torn {
                tear(&mut scene.flash, page, |_| vec![random.byte()]);
            }
            let moment = find(&scene.flash).ok_or("no moment")?.place as usize;
            for slot in 0..shape.slots() {
                right(&scene, &states[moment], moment, slot).map_err(|why| {
                    let list = &scene.list;
                    format!("list {list:?}, place {place}, torn {torn:?}, slot {slot}: {why}")
                })?;
            }
        }
    }
    Ok(())
}

/// An original is lost if, and only if, the same pages come from some pair of
/// stores at rest that differ in it; a rebuilt one is right, and the other sum is
/// the only one there is.
fn right(scene: &Scene, moment: &Flash, place: usize, slot: usize) -> Outcome {
    let shape = &scene.sizes;
    let given = answer(&scene.rebuild_request(slot));
    same("the number", given.numbers.returned, 0)?;
    let full = |other: &usize| !scene.flash.unfinished(other / shape.pages());
    let slots: Vec<usize> = (0..shape.slots())
        .filter(full)
        .filter(|&other| other != slot)
        .collect();
    let moves = move_of::<Correct>(&scene.request(Call::Rebuild));
    let sums = sums_at::<Correct>(&moves, place);
    for other in 0..shape.slots() {
        let sum = sums[other].iter().fold(0, |sum, &k| sum | 1u8 << k);
        let held = if moment.is_blank(other) {
            0
        } else {
            moment.page(other)[0]
        };
        same(&format!("the originals in slot {other}"), sum, held)?;
    }
    for k in 0..shape.originals() {
        // Two stores differ in the originals of `apart`.
        let same_pages = |apart: u32| {
            let page = |&other: &usize| u32::from(moment.page(other)[0]);
            slots
                .iter()
                .all(|other| (page(other) & apart).count_ones() % 2 == 0)
        };
        let lost =
            (0..1 << shape.originals()).any(|apart: u32| apart >> k & 1 == 1 && same_pages(apart));
        let due = if lost { (255, 0) } else { (1 << k, 1) };
        same(
            &format!("original {k}"),
            (given.parts.area[k], given.parts.flags[k]),
            due,
        )?;
        let by_read = stored(&terms_of::<Correct>(&moves, &scene.flash, k));
        if !lost && by_read.contains(&slot) {
            let of_set = |other: &&usize| moves.set_of(sums[**other][0]) == moves.set_of(k);
            let pages: Vec<u8> = slots
                .iter()
                .filter(of_set)
                .map(|&other| moment.page(other)[0])
                .collect();
            let gives = |choice: &u32| {
                let taken = pages
                    .iter()
                    .enumerate()
                    .filter(|(index, _)| choice >> index & 1 == 1);
                taken.fold(0, |sum, (_, page)| sum ^ page) == 1 << k
            };
            same(
                "other sums",
                (0..1u32 << pages.len()).filter(gives).count(),
                1,
            )?;
        }
    }
    let of_no_use = !full(&slot);
    ensure(!of_no_use || !given.parts.flags.contains(&0), || {
        "an original is lost without a page of the unfinished block".into()
    })
}
