//! Every cut inside every step of small moves, and inside the recovery.

use super::tally::{ensure, same, Tally};
use super::trace::{all_readable, trace};
use crate::random::{small_lists, Random};
use crate::scene::{small_shapes, Scene};
use crate::simulator::cuts::{any_torn_mark, tear, torn_choices, Torn};
use crate::simulator::flash::Flash;
use crate::simulator::sizes::Sizes;
use crate::simulator::steps::{all_steps, Step};

type Outcome = Result<(), String>;

pub fn check(tally: &mut Tally, random: &mut Random) {
    for (n, m) in small_shapes(4) {
        for list in small_lists((n * m) as usize, 3, random) {
            let name = format!("cuts of n = {n}, m = {m}, list {list:?}");
            tally.check(&name, check_cuts(n, m, list, random));
        }
    }
    for (n, m) in [(5, 1), (6, 1), (2, 3), (3, 2), (2, 4), (3, 3), (4, 2)] {
        for _ in 0..6 {
            let list = random.permutation((n * m) as usize);
            let list = random.dropping(list);
            let name = format!("cuts of n = {n}, m = {m}, list {list:?}");
            tally.check(&name, check_cuts(n, m, list, random));
        }
    }
}

/// What a torn page may hold.
#[derive(Clone, Copy, Debug)]
enum Unknown {
    AsBefore,
    LooksBlank,
    Nonsense,
}

const UNKNOWN: [Unknown; 3] = [Unknown::AsBefore, Unknown::LooksBlank, Unknown::Nonsense];

fn torn(flash: &Flash, pages: &[Torn], unknown: Unknown, random: &mut Random) -> Flash {
    let mut flash = flash.clone();
    for &page in pages {
        tear(&mut flash, page, |before| match unknown {
            Unknown::AsBefore => before.to_vec(),
            Unknown::LooksBlank => vec![255; before.len()],
            Unknown::Nonsense => random.bytes(before.len()),
        });
    }
    flash
}

fn check_cuts(n: u32, m: u32, list: Vec<u16>, random: &mut Random) -> Outcome {
    let sizes = Sizes {
        n,
        m,
        page_bytes: 1,
        s: random.below(3) as u32,
    };
    let originals = random.bytes(sizes.originals());
    let scene = Scene::at_rest(sizes, list, originals);
    let states = trace(&scene)?;
    for (place, step) in all_steps(&sizes).into_iter().enumerate() {
        for pages in torn_choices(&states[place], step, &[255, 254, 3]) {
            for unknown in UNKNOWN {
                let mut cut = scene.clone();
                cut.flash = torn(&states[place], &pages, unknown, random);
                check_cut(&cut, &states, random)
                    .map_err(|why| format!("step {place}, slots {pages:?} {unknown:?}: {why}"))?;
            }
        }
    }
    Ok(())
}

/// After a cut all can be read, a recovery ends at a place, and so it does
/// after it was itself cut.
fn check_cut(cut: &Scene, states: &[Flash], random: &mut Random) -> Outcome {
    all_readable(cut)?;
    recovers(cut, states)?;
    for again in cuts_of_recovery(cut, random) {
        all_readable(&again)?;
        recovers(&again, states)?;
    }
    Ok(())
}

fn recovers(cut: &Scene, states: &[Flash]) -> Outcome {
    let mut scene = cut.clone();
    let mended = scene.mend();
    same("the number of mend", mended.numbers.returned, 0)?;
    let place = mended.numbers.place;
    ensure(scene.flash == states[place as usize], || {
        format!("not the flash of place {place}")
    })?;
    let end = scene.run(place, u32::MAX);
    same("finished", end.numbers.finished, 1)?;
    ensure(scene.flash == states[states.len() - 1], || {
        "another end".into()
    })
}

/// What a cut inside the recovery's erase can leave.
fn cuts_of_recovery(cut: &Scene, random: &mut Random) -> Vec<Scene> {
    let unfinished = (0..=cut.sizes.data_blocks()).find(|&block| cut.flash.unfinished(block));
    let Some(block) = unfinished else {
        return vec![];
    };
    let choices = torn_choices(&cut.flash, Step::Erase { block }, &[any_torn_mark(random)]);
    let scene_with = |pages: Vec<Torn>| Scene {
        flash: torn(&cut.flash, &pages, *random.pick(&UNKNOWN), random),
        ..cut.clone()
    };
    choices.into_iter().map(scene_with).collect()
}
