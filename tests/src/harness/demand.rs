//! Demand 3 over one list of events: what is counted, and what must hold.

use crate::checks::tally::{ensure, same};
use crate::checks::trace::all_moved;
use crate::scene::Scene;
use crate::simulator::dropping::{stored, sum, Term};
use crate::simulator::request::{Answer, Numbers};
use crate::simulator::rules::Correct;
use crate::simulator::sizes::Sizes;
use crate::simulator::steps::{all_steps, Step};
use crate::simulator::wear::counters;

type Outcome = Result<(), String>;

/// What has been counted since the store was at rest.
#[derive(Clone)]
pub struct Ledger {
    erases_begun: u32,
    recoveries: u32,
    cuts: u32,
    /// The erases of each block by runs.
    wear: Vec<u32>,
    finished: bool,
    /// The limit that the run from place 0 has kept, while no cut, no recovery
    /// and no other record has come between.
    limit: Option<u32>,
}

impl Ledger {
    pub fn at_rest(sizes: &Sizes) -> Ledger {
        Ledger {
            erases_begun: 0,
            recoveries: 0,
            cuts: 0,
            wear: vec![0; sizes.data_blocks() + 1],
            finished: false,
            limit: None,
        }
    }

    /// A run from place 0 was not refused, so that no block will pass the limit.
    pub fn begun(&mut self, limit: u32) {
        self.limit = Some(limit);
    }

    /// The record is not the one that the move began with.
    pub fn other_record(&mut self) {
        self.limit = None;
    }

    /// The steps that a run finished, whether it returned or was cut after
    /// them. A run returns how many blocks it erased; which ones they are is
    /// told by its steps.
    pub fn ran(&mut self, sizes: &Sizes, place: u32, numbers: &Numbers) {
        self.erases_begun += numbers.erases;
        let steps = all_steps(sizes).into_iter().skip(place as usize);
        for step in steps.take(numbers.steps as usize) {
            if let Step::Erase { block } = step {
                self.wear[block] += 1;
            }
        }
    }

    /// Only a run that returns it reports the finish.
    pub fn returned(&mut self, numbers: &Numbers) {
        self.finished |= numbers.finished == 1;
    }

    /// A recovery call, refused, cut or not, with the erases it finished.
    pub fn recovery(&mut self, erases: u32) {
        self.recoveries += 1;
        self.limit = None;
        self.erases_begun += erases;
    }

    /// A cut, inside this step if one was begun.
    pub fn cut(&mut self, begun: Option<Step>) {
        self.cuts += 1;
        self.limit = None;
        if let Some(Step::Erase { .. }) = begun {
            self.erases_begun += 1;
        }
    }

    /// What must hold after each event.
    pub fn holds(&self, scene: &Scene) -> Outcome {
        let most = 2 * scene.sizes.n + self.recoveries;
        ensure(self.erases_begun <= most, || {
            format!("{} erases, at most {most}", self.erases_begun)
        })?;
        let quiet = self.cuts == 0 && self.recoveries == 0;
        ensure(
            !quiet || self.wear.iter().all(|&erases| erases <= 2),
            || {
                format!(
                    "a block is erased more than twice: {:?} by block",
                    self.wear
                )
            },
        )?;
        self.within_limit(scene)?;
        if self.finished {
            all_moved(scene).map_err(|why| format!("the finish is not final: {why}"))?;
        }
        Ok(())
    }

    fn within_limit(&self, scene: &Scene) -> Outcome {
        let Some(limit) = self.limit else {
            return Ok(());
        };
        let counters = counters::<Correct>(&scene.wear);
        let worn = (0..=scene.sizes.data_blocks()).find(|&block| counters[block] > limit);
        ensure(worn.is_none(), || {
            format!("{counters:?} has a block worn past the limit {limit} that was kept")
        })
    }
}

/// The stored pages that a read sums under some marks. What is summed is known
/// where a page has a bit for each slot and one more.
pub struct Summed {
    pub count: u32,
    pub terms: Option<Vec<Term>>,
}

/// A read gives the original, as the sum of at most n whole pages, which are
/// the same ones whenever the marks are equal, and one page of 255s at most. A
/// dropped original is 255s and no stored page.
pub fn right_read(scene: &Scene, k: usize, answer: &Answer, summed: &Summed) -> Outcome {
    let count = answer.numbers.count;
    same("the number of read", answer.numbers.returned, 0)?;
    same(
        &format!("original {k} read"),
        &answer.parts.work,
        &scene.page(k),
    )?;
    let (least, most) = match scene.is_dropped(k) {
        true => (0, 0),
        false => (1, scene.sizes.n),
    };
    ensure((least..=most).contains(&count), || {
        format!("{count} pages summed, at least {least} and at most {most}")
    })?;
    ensure(count == summed.count, || {
        let before = summed.count;
        format!("{count} pages summed, and {before} under the same marks before")
    })?;
    match &summed.terms {
        Some(terms) => right_terms(scene, k, count, terms),
        None => Ok(()),
    }
}

fn right_terms(scene: &Scene, k: usize, count: u32, terms: &[Term]) -> Outcome {
    let slots = stored(terms);
    same("the number of slots summed", slots.len() as u32, count)?;
    let mut whole = slots.iter().map(|&slot| scene.flash.is_whole(slot));
    ensure(whole.all(|whole| whole), || {
        format!("a page of {slots:?} is not whole")
    })?;
    same(
        &format!("original {k} from {terms:?}"),
        sum::<Correct>(&scene.flash, terms),
        scene.page(k),
    )
}
