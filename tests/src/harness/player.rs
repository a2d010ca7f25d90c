//! A mover that plays lists of events, and what is known of its reads.

use super::compare::{Comparer, Difference};
use super::demand::{right_read, Summed};
use crate::scene::Scene;
use crate::simulator::dropping::Term;
use crate::simulator::flash::Flash;
use crate::simulator::request::{Answer, Request};
use std::collections::{HashMap, HashSet};

pub type Played<T> = Result<T, Box<Difference>>;

/// What the report of a broken demand looks like.
pub fn broken(request: &Request, why: String) -> Box<Difference> {
    let what = format!("demand 3: {why}");
    let request = request.clone();
    Box::new(Difference { request, what })
}

/// A mover that plays the lists of one move, with what its reads have summed
/// under which marks so far.
pub struct Player<'a, 'b> {
    pub comparer: &'a mut Comparer<'b>,
    /// Does the move drop pages?
    drops: bool,
    summed: HashMap<(Vec<u8>, usize), Summed>,
    /// The stores and marks of which every original has been read.
    read_out: HashSet<(Vec<u8>, Vec<u8>)>,
}

impl<'a, 'b> Player<'a, 'b> {
    pub fn new(comparer: &'a mut Comparer<'b>, scene: &Scene) -> Player<'a, 'b> {
        Player {
            comparer,
            drops: scene.has_drops(),
            summed: HashMap::new(),
            read_out: HashSet::new(),
        }
    }

    pub fn count_event(&mut self) {
        self.comparer.events += 1;
        self.comparer.events_dropping += self.drops as u64;
    }

    /// One event of the list.
    pub fn event(&mut self, request: &Request) -> Played<Answer> {
        self.count_event();
        self.comparer.compare(request)
    }

    /// A call aside from the list: its store may be any, and what it leaves is
    /// compared and forgotten.
    pub fn aside(&mut self, request: &Request) -> Played<()> {
        self.event(request).map(|_| ())
    }

    pub fn read(&mut self, scene: &Scene, k: usize) -> Played<()> {
        let request = scene.read_request(k);
        let answer = self.event(&request)?;
        let key = (scene.flash.marks.clone(), k);
        if !self.summed.contains_key(&key) {
            let count = answer.numbers.count;
            let shown = self.slots_summed(scene, k)?;
            let summed = shown.unwrap_or(Summed { count, terms: None });
            self.summed.insert(key.clone(), summed);
        }
        right_read(scene, k, &answer, &self.summed[&key]).map_err(|why| broken(&request, why))
    }

    /// Are the originals of this flash still to be read? They are read once: most
    /// recoveries lead to one of few.
    pub fn unread(&mut self, flash: &Flash) -> bool {
        let key = (flash.store.clone(), flash.marks.clone());
        self.read_out.insert(key)
    }

    /// Lays a bit of its own in the page of each slot, under the same marks:
    /// the page read then shows which slots were summed. The next bit is in no
    /// page, and shows whether 255s were added.
    fn slots_summed(&mut self, scene: &Scene, k: usize) -> Played<Option<Summed>> {
        let (slots, bytes) = (scene.sizes.slots(), scene.sizes.bytes());
        if slots >= 8 * bytes {
            return Ok(None);
        }
        let mut request = scene.read_request(k);
        request.parts.store.fill(0);
        for slot in 0..slots {
            request.parts.store[slot * bytes + slot / 8] = 1 << (slot % 8);
        }
        let answer = self.comparer.compare(&request)?;
        let page = answer.parts.work;
        let shown = |bit: usize| page[bit / 8] >> (bit % 8) & 1 == 1;
        let turned = shown(slots);
        let summed = (0..slots).filter(|&slot| shown(slot) != turned);
        let mut terms: Vec<Term> = summed.map(Term::Stored).collect();
        terms.extend(turned.then_some(Term::Dropped));
        Ok(Some(Summed {
            count: answer.numbers.count,
            terms: Some(terms),
        }))
    }
}
