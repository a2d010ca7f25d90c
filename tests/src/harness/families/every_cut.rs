//! Every cut of small moves: at every step, in every way it can tear, and
//! again in the recovery after it.

use super::other_splits::elsewhere;
use super::walk::{any_bytes, compare_split, kept_list, sizes};
use super::Outcome;
use crate::harness::compare::Comparer;
use crate::harness::player::Player;
use crate::harness::story::{MendCut, Story};
use crate::harness::tears::{Begun, Unknown};
use crate::random::Random;
use crate::scene::Scene;
use crate::simulator::cuts::torn_choices;
use crate::simulator::recovery::find;
use crate::simulator::steps::{all_steps, Step};

/// The marks that torn pages get: 255, and both ends of what else a cut leaves.
const MARKS: [u8; 3] = [255, 254, 3];

pub fn cases(comparer: &mut Comparer, random: &mut Random) -> Outcome {
    for (n, m) in [1, 2, 3]
        .map(|n: usize| [1, 2, 3].map(|m: usize| (n, m)))
        .concat()
    {
        // A bit of its own for each slot and for 255s, so that reads show what
        // they sum.
        let bytes = ((n + 1) * m + 1).div_ceil(8);
        for s in 0..3 {
            // Any bytes: a page of 255s looks the same in a blank place.
            let shape = sizes(n, m, bytes, s);
            let kept = kept_list(&shape, random);
            let dropping = random.with_drops(kept.clone());
            for list in [kept, dropping] {
                let mut scene = any_bytes(shape, list, random);
                if s == 1 {
                    scene.sets = elsewhere(&scene, random);
                }
                every_cut(comparer, scene, random)?;
            }
        }
    }
    Ok(())
}

fn every_cut(comparer: &mut Comparer, scene: Scene, random: &mut Random) -> Outcome {
    compare_split(comparer, &scene, random)?;
    let mut player = Player::new(comparer, &scene);
    let at_rest = Story::at_rest(scene);
    uncut(&mut player, at_rest.clone())?;
    let steps = all_steps(&at_rest.scene.sizes);
    for finished in 0..=steps.len() {
        let mut ways = vec![None];
        if let Some(&step) = steps.get(finished) {
            ways.extend(
                all_tears(&at_rest.scene, step, random)
                    .into_iter()
                    .map(Some),
            );
        }
        for begun in ways {
            let mut cut = at_rest.clone();
            cut.cut_run(&mut player, 0, finished as u32, begun.as_ref())?;
            after_cut(&mut player, cut, random)?;
        }
    }
    Ok(())
}

/// Step by step with all reads, no cut and no recovery, and past the finish.
fn uncut(player: &mut Player, mut story: Story) -> Outcome {
    let end = story.scene.sizes.steps() as u32;
    story.read_all(player)?;
    for place in 0..=end {
        story.run(player, place, 1)?;
        story.run(player, place, 1)?;
        story.read_all(player)?;
    }
    Ok(())
}

/// Each choice of torn pages and of their marks, with each kind of bytes.
fn all_tears(scene: &Scene, step: Step, random: &mut Random) -> Vec<Begun> {
    let mut tears = vec![];
    for pages in torn_choices(&scene.flash, step, &MARKS) {
        for unknown in Unknown::one_of_each(random) {
            let torn = pages.iter().map(|&page| (page, unknown)).collect();
            tears.push(Begun { step, torn });
            if pages.is_empty() {
                break;
            }
        }
    }
    tears
}

/// The recovery, and the same after it was itself cut in every way.
fn after_cut(player: &mut Player, mut cut: Story, random: &mut Random) -> Outcome {
    cut.read_all(player)?;
    to_the_end(player, cut.clone())?;
    for again in mend_cuts(&cut.scene, random) {
        let mut twice = cut.clone();
        twice.cut_mend(player, &again)?;
        twice.read_all(player)?;
        to_the_end(player, twice)?;
    }
    Ok(())
}

fn mend_cuts(scene: &Scene, random: &mut Random) -> Vec<MendCut> {
    let mut cuts = vec![MendCut::NotBegun, MendCut::Erased];
    if let Some(block) = find(&scene.flash).and_then(|recovery| recovery.erase) {
        let step = Step::Erase { block };
        // All marks here too would take minutes with three pages a block.
        let one = [*random.pick(&MARKS)];
        let few = scene.sizes.pages() < 3;
        for pages in torn_choices(&scene.flash, step, if few { &MARKS } else { &one }) {
            let unknown = Unknown::any(random);
            let torn = pages.iter().map(|&page| (page, unknown)).collect();
            cuts.push(MendCut::InsideErase(Begun { step, torn }));
        }
    }
    cuts
}

/// Recovered, read, run to the end, and once more past it.
fn to_the_end(player: &mut Player, mut story: Story) -> Outcome {
    story.mend(player)?;
    story.read_all(player)?;
    story.finish(player)?;
    story.mend(player)?;
    story.finish(player)
}
