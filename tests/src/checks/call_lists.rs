//! Random lists of calls with cuts, from rest to past the finish.

use super::tally::{ensure, same, Tally};
use super::trace::{all_moved, all_readable};
use crate::random::Random;
use crate::scene::Scene;
use crate::simulator::calls::answer;
use crate::simulator::cuts::{any_torn_mark, slots_at_risk, tear};
use crate::simulator::refusals::refusal;
use crate::simulator::request::{Call, Request};
use crate::simulator::rules::Correct;
use crate::simulator::sizes::Sizes;
use crate::simulator::steps::{all_steps, marks_at, Step};
use crate::simulator::wear::counters;

type Outcome = Result<(), String>;

const LISTS: usize = 300;
const EVENTS: usize = 60;

pub fn check(tally: &mut Tally, random: &mut Random) {
    for round in 0..LISTS {
        let (n, m) = (random.between(1, 5), random.between(1, 4));
        let name = format!("call list {round} of n = {n}, m = {m}");
        tally.check(&name, check_list(n as u32, m as u32, random));
    }
}

/// The flash and what has been counted over the list so far.
struct Story {
    scene: Scene,
    erases_begun: u32,
    /// By the calls that returned.
    erases_reported: u32,
    recoveries: u32,
    /// A run must not follow a cut before an uncut recovery call.
    cut_open: bool,
    finished: bool,
}

fn check_list(n: u32, m: u32, random: &mut Random) -> Outcome {
    let sizes = Sizes {
        n,
        m,
        page_bytes: random.between(1, 3) as u32,
        s: random.below(3) as u32,
    };
    let list = random.permutation(sizes.originals());
    let list = random.dropping(list);
    let originals = random.bytes(sizes.originals() * sizes.bytes());
    let mut story = Story {
        scene: Scene::at_rest(sizes, list, originals),
        erases_begun: 0,
        erases_reported: 0,
        recoveries: 0,
        cut_open: false,
        finished: false,
    };
    for event in 0..EVENTS {
        story
            .event(random)
            .map_err(|why| format!("event {event}: {why}"))?;
        story
            .holds()
            .map_err(|why| format!("after event {event}: {why}"))?;
    }
    story.finishes()
}

impl Story {
    fn event(&mut self, random: &mut Random) -> Outcome {
        match random.below(8) {
            0..=3 if !self.cut_open => self.run(random),
            0..=4 => self.recovery(random),
            5 => self.refused(random),
            6 => self.read(random),
            // A cut between calls changes nothing, but asks for a recovery.
            _ => {
                self.cut_open = true;
                Ok(())
            }
        }
    }

    fn holds(&self) -> Outcome {
        all_readable(&self.scene)?;
        let most = 2 * self.scene.sizes.n + self.recoveries;
        ensure(self.erases_begun <= most, || {
            format!("{} erases, at most {most}", self.erases_begun)
        })?;
        let counted: u32 = counters::<Correct>(&self.scene.wear).iter().sum();
        same("the erases counted", counted, self.erases_reported)?;
        if self.finished {
            all_moved(&self.scene)?;
        }
        Ok(())
    }

    /// Mostly the place that the marks show, else any.
    fn place(&self, random: &mut Random) -> u32 {
        if random.one_in(5) {
            return random.below(self.scene.sizes.steps() + 2) as u32;
        }
        let sizes = &self.scene.sizes;
        let fits = |&place: &usize| marks_at(sizes, place) == self.scene.flash.marks;
        (0..=sizes.steps()).find(fits).unwrap_or(0) as u32
    }

    fn run(&mut self, random: &mut Random) -> Outcome {
        let place = self.place(random);
        let budget = match random.below(6) {
            0 => u32::MAX,
            most => random.below(4 * most) as u32,
        };
        let request = self.scene.run_request(place, budget);
        if refusal::<Correct>(&request).is_some() {
            return self.stays(&request);
        }
        if random.one_in(3) {
            return self.run_cut(place, budget, random);
        }
        let answer = self.scene.run(place, budget);
        self.erases_begun += answer.numbers.erases;
        self.erases_reported += answer.numbers.erases;
        self.finished |= answer.numbers.finished == 1;
        Ok(())
    }

    /// Some steps are finished, and the next may be begun.
    fn run_cut(&mut self, place: u32, budget: u32, random: &mut Random) -> Outcome {
        let due = budget.min(self.scene.sizes.steps() as u32 - place);
        let finished = random.below(due as usize + 1) as u32;
        let answer = answer(&self.scene.run_request(place, finished));
        self.scene.take_flash(&answer);
        self.erases_begun += answer.numbers.erases;
        self.cut_open = true;
        if finished < due && !random.one_in(4) {
            let step = all_steps(&self.scene.sizes)[(place + finished) as usize];
            self.begin(step, random);
        }
        Ok(())
    }

    /// A step begun and cut inside.
    fn begin(&mut self, step: Step, random: &mut Random) {
        let mut slots = slots_at_risk(&self.scene.flash, step);
        if let Step::Erase { .. } = step {
            self.erases_begun += 1;
            slots.retain(|_| !random.one_in(3));
        }
        for slot in slots {
            let torn = (slot, any_torn_mark(random));
            tear(&mut self.scene.flash, torn, |before| {
                match random.below(3) {
                    0 => vec![255; before.len()],
                    1 => before.to_vec(),
                    _ => random.bytes(before.len()),
                }
            });
        }
    }

    fn recovery(&mut self, random: &mut Random) -> Outcome {
        self.recoveries += 1;
        let mut blocks = 0..=self.scene.sizes.data_blocks();
        let unfinished = blocks.find(|&block| self.scene.flash.unfinished(block));
        match unfinished {
            Some(block) if random.one_in(4) => {
                self.cut_open = true;
                self.begin(Step::Erase { block }, random);
            }
            _ => {
                let answer = self.scene.mend();
                same("the number of mend", answer.numbers.returned, 0)?;
                self.erases_begun += answer.numbers.erases;
                self.erases_reported += answer.numbers.erases;
                self.cut_open = false;
            }
        }
        Ok(())
    }

    fn read(&mut self, random: &mut Random) -> Outcome {
        let original = random.below(self.scene.sizes.originals() + 1);
        self.stays(&self.scene.read_request(original))
    }

    /// A call with something wrong, which must be refused.
    fn refused(&mut self, random: &mut Random) -> Outcome {
        let call = *random.pick(&[Call::Run, Call::Mend, Call::Read]);
        if call == Call::Run && self.cut_open {
            return Ok(());
        }
        let mut request = self.scene.request(call);
        match random.below(4) {
            0 => request.sizes.n = 65,
            1 => request.sizes.s = 3,
            2 => request.parts.marks.push(0),
            _ => {
                request.parts.store.pop();
            }
        }
        let refused = answer(&request).numbers.returned;
        ensure(refused != 0, || format!("{call:?} is not refused"))?;
        if call == Call::Mend {
            self.recoveries += 1;
            self.cut_open = false;
        }
        self.stays(&request)
    }

    /// This call must leave the store, the marks and the record as they are.
    fn stays(&self, request: &Request) -> Outcome {
        let parts = answer(request).parts;
        same("the store", &parts.store, &request.parts.store)?;
        same("the record", &parts.wear, &request.parts.wear)?;
        same("the marks", &parts.marks, &request.parts.marks)
    }

    fn finishes(&mut self) -> Outcome {
        let place = self.scene.mend().numbers.place;
        let last = self.scene.run(place, u32::MAX);
        same("finished", last.numbers.finished, 1)?;
        all_moved(&self.scene)
    }
}
