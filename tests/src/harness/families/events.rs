//! Long random lists of events: runs, recoveries, reads, refused calls, and
//! cuts in all of them.

use super::nonsense::wrong_mark;
use super::other_splits::elsewhere;
use super::refusals::flaws;
use super::walk::{any_record, compare_split, random_scene, sizes};
use super::Outcome;
use crate::harness::compare::Comparer;
use crate::harness::player::Player;
use crate::harness::story::{MendCut, Story};
use crate::harness::tears::Begun;
use crate::random::Random;
use crate::simulator::recovery::find;
use crate::simulator::refusals::refusal;
use crate::simulator::request::{Call, Request};
use crate::simulator::rules::Correct;
use crate::simulator::sizes::Sizes;
use crate::simulator::steps::{all_steps, Step};

const LISTS: usize = 2000;
const BIG_LISTS: usize = 16;
const AFTER_FINISH: usize = 12;

pub fn cases(comparer: &mut Comparer, random: &mut Random) -> Outcome {
    for _ in 0..comparer.rounds {
        for list in 0..LISTS {
            let widest = 2 + 7 * list / LISTS;
            let (n, m) = (random.between(1, widest), random.between(1, widest));
            let shape = sizes(n, m, random.between(1, 9), list % 3);
            play(comparer, shape, 300, random)?;
        }
        for list in 0..BIG_LISTS {
            let (n, m) = (random.between(8, 64), random.between(8, 64));
            let shape = sizes(n, m, 1 + list % 2, list % 3);
            play(comparer, shape, 100, random)?;
        }
    }
    Ok(())
}

/// One list, to the finish and past it.
fn play(comparer: &mut Comparer, shape: Sizes, most: usize, random: &mut Random) -> Outcome {
    let mut scene = random_scene(shape, random);
    compare_split(comparer, &scene, random)?;
    if random.one_in(2) {
        scene.sets = elsewhere(&scene, random);
    }
    // One erase too many for the most worn block, if it has no room left.
    scene.wear_limit -= random.one_in(6) as u32;
    let mut player = Player::new(comparer, &scene);
    let block_steps = shape.pages() + 1;
    let mut list = List {
        story: Story::at_rest(scene),
        quiet: random.one_in(5),
        widest_budget: *random.pick(&[3, block_steps, 3 * block_steps, shape.steps() / 4 + 1]),
    };
    // A limit that no move keeps, before this one begins.
    let mut worn = list.story.scene.run_request(0, 1);
    worn.wear_limit = 0;
    list.story.refused(&mut player, &worn)?;
    for _ in 0..random.between(most / 2, most) {
        list.event(&mut player, random)?;
        if list.story.place == Some(shape.steps() as u32) {
            break;
        }
    }
    list.story.finish(&mut player)?;
    for _ in 0..AFTER_FINISH {
        list.event(&mut player, random)?;
    }
    Ok(())
}

struct List {
    story: Story,
    /// No cut and no recovery.
    quiet: bool,
    widest_budget: usize,
}

impl List {
    fn event(&mut self, player: &mut Player, random: &mut Random) -> Outcome {
        match random.below(if self.quiet { 10 } else { 15 }) {
            0 if random.one_in(4) => self.refresh(player),
            0..=3 => self.run(player, random),
            4..=6 => self.read(player, random),
            7 => self.other_place(player, random),
            8 => self.flawed(player, random),
            9 => self.nonsense(player, random),
            10 | 11 => self.cut_run(player, random),
            12 => self.story.mend(player),
            13 => self.cut_mend(player, random),
            _ => self.story.cut_idle(player),
        }
    }

    fn budget(&self, random: &mut Random) -> u32 {
        match random.below(60) {
            0 => u32::MAX,
            1..=5 => 0,
            _ => random.between(1, self.widest_budget) as u32,
        }
    }

    /// The place to go on from, if a run may do so now.
    fn open_place(&self) -> Option<u32> {
        self.story.place.filter(|_| !self.story.cut_open)
    }

    /// The place that the marks look like: after a refused recovery call no
    /// other is known.
    fn place_by_marks(&self) -> Option<u32> {
        let flash = &self.story.scene.flash;
        let recovery = find(flash)?;
        let begun = recovery.erase.map(|block| flash.block_slots(block));
        let written = begun.map_or(0, |slots| {
            slots.filter(|&slot| flash.is_whole(slot)).count()
        });
        Some(recovery.place + written as u32)
    }

    fn run(&mut self, player: &mut Player, random: &mut Random) -> Outcome {
        let mut place = self.open_place();
        if !self.story.cut_open && random.one_in(3) {
            place = place.or(self.place_by_marks());
        }
        let Some(place) = place else {
            return self.story.mend(player);
        };
        let budget = self.budget(random);
        // Mostly a record with full counters is refused where a move begins.
        if place > 0 && random.one_in(10) {
            self.story.lend_record(any_record(random));
        }
        let numbers = self.story.run(player, place, budget)?;
        if numbers.returned == 12 {
            self.story.new_module();
        }
        Ok(())
    }

    fn cut_run(&mut self, player: &mut Player, random: &mut Random) -> Outcome {
        let Some(place) = self.open_place() else {
            return self.cut_mend(player, random);
        };
        let steps = all_steps(&self.story.scene.sizes);
        let left = steps.len().saturating_sub(place as usize);
        let finished = random.below(left.min(self.widest_budget) + 1);
        let next = steps.get(place as usize + finished);
        let begun = next
            .filter(|_| !random.one_in(6))
            .map(|&step| Begun::random(&self.story.scene.flash, step, random));
        self.story
            .cut_run(player, place, finished as u32, begun.as_ref())
    }

    fn cut_mend(&mut self, player: &mut Player, random: &mut Random) -> Outcome {
        let flash = &self.story.scene.flash;
        let unfinished = find(flash).and_then(|recovery| recovery.erase);
        let cut = match unfinished {
            Some(block) if !random.one_in(3) => {
                MendCut::InsideErase(Begun::random(flash, Step::Erase { block }, random))
            }
            _ => random.pick(&[MendCut::NotBegun, MendCut::Erased]).clone(),
        };
        self.story.cut_mend(player, &cut)
    }

    /// The pair made afresh, which demand 3 does not speak of.
    fn refresh(&mut self, player: &mut Player) -> Outcome {
        let request = self.story.scene.request(Call::Refresh);
        let answer = player.event(&request)?;
        self.story.scene.wear = answer.parts.wear;
        Ok(())
    }

    fn read(&mut self, player: &mut Player, random: &mut Random) -> Outcome {
        let originals = self.story.scene.sizes.originals();
        if originals <= 9 && random.one_in(4) {
            return self.story.read_all(player);
        }
        self.story.read(player, random.below(originals))
    }

    /// A run from any place, also between a cut and the recovery, if it is
    /// one to be refused.
    fn other_place(&mut self, player: &mut Player, random: &mut Random) -> Outcome {
        let place = random.below(self.story.scene.sizes.steps() + 3) as u32;
        let request = self.story.scene.run_request(place, self.budget(random));
        self.refused(player, &request)
    }

    fn flawed(&mut self, player: &mut Player, random: &mut Random) -> Outcome {
        let calls = [
            Call::Run,
            Call::Read,
            Call::Split,
            Call::Rebuild,
            Call::Mend,
        ];
        let calls = &calls[..if self.quiet { 4 } else { 5 }];
        let mut request = self.story.scene.request(*random.pick(calls));
        request.place = self.story.place.unwrap_or(0);
        random.pick(&flaws(&request))(&mut request);
        self.refused(player, &request)
    }

    /// A call to be refused; one that is not has no place in the list here.
    fn refused(&mut self, player: &mut Player, request: &Request) -> Outcome {
        match refusal::<Correct>(request) {
            Some(_) => self.story.refused(player, request),
            None => player.aside(request),
        }
    }

    /// Aside from the list: other marks and bytes, for every call.
    fn nonsense(&mut self, player: &mut Player, random: &mut Random) -> Outcome {
        let mut scene = self.story.scene.clone();
        for _ in 0..random.between(1, 3) {
            wrong_mark(&mut scene, random);
        }
        let calls = [Call::Run, Call::Mend, Call::Read, Call::Rebuild];
        let mut request = scene.request(*random.pick(&calls));
        request.slot = random.below(scene.sizes.slots()) as u32;
        request.place = self.story.place.unwrap_or(0);
        request.budget = self.budget(random);
        request.original = random.below(scene.sizes.originals()) as u32;
        player.aside(&request)
    }
}
