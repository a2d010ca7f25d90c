//! A move with its flash, from which calls are asked.

use crate::simulator::calls::answer;
use crate::simulator::dropping::{completed, DROPPED};
use crate::simulator::flash::Flash;
use crate::simulator::request::{Answer, Call, Part, Parts, Request};
use crate::simulator::rules::Correct;
use crate::simulator::sizes::Sizes;
use crate::simulator::wear::WEAR_BYTES;

#[derive(Clone)]
pub struct Scene {
    pub sizes: Sizes,
    /// As the caller lends it.
    pub list: Vec<u16>,
    pub pins: Vec<u8>,
    pub sets: Vec<u8>,
    pub originals: Vec<u8>,
    pub flash: Flash,
    /// The record of erases, and the limit that runs get.
    pub wear: Vec<u8>,
    pub wear_limit: u32,
}

/// What the work page and the areas hold before a call.
pub const WORK_BEFORE: u8 = 0xa5;

impl Scene {
    /// At rest, with the split of the split call, nothing pinned, no erase
    /// counted, and no limit below the end of the counters.
    pub fn at_rest(sizes: Sizes, list: Vec<u16>, originals: Vec<u8>) -> Scene {
        let mut scene = Scene {
            sizes,
            list,
            pins: vec![0; sizes.originals()],
            sets: vec![0; sizes.originals()],
            flash: Flash::at_rest(sizes, &originals),
            originals,
            wear: vec![0; WEAR_BYTES],
            wear_limit: u32::MAX,
        };
        scene.sets = answer(&scene.request(Call::Split)).parts.sets;
        scene
    }

    /// A call with the parts it takes; place, budget, original and slot are 0.
    pub fn request(&self, call: Call) -> Request {
        let mut parts = Parts::default();
        for &part in call.parts() {
            *parts.get_mut(part) = self.part(part);
        }
        Request {
            call,
            sizes: self.sizes,
            parts,
            place: 0,
            budget: 0,
            wear_limit: self.wear_limit,
            original: 0,
            slot: 0,
        }
    }

    /// What the caller lends as this part.
    fn part(&self, part: Part) -> Vec<u8> {
        let bytes = self.sizes.bytes();
        match part {
            Part::List => self.list.iter().flat_map(|e| e.to_le_bytes()).collect(),
            Part::Pins => self.pins.clone(),
            Part::Sets => self.sets.clone(),
            Part::Store => self.flash.store.clone(),
            Part::Marks => self.flash.marks.clone(),
            Part::Work => vec![WORK_BEFORE; bytes],
            Part::Wear => self.wear.clone(),
            Part::Area => vec![WORK_BEFORE; self.sizes.originals() * bytes],
            Part::Flags => vec![WORK_BEFORE; self.sizes.originals()],
        }
    }

    pub fn run_request(&self, place: u32, budget: u32) -> Request {
        Request {
            place,
            budget,
            ..self.request(Call::Run)
        }
    }

    pub fn read_request(&self, original: usize) -> Request {
        Request {
            original: original as u32,
            ..self.request(Call::Read)
        }
    }

    pub fn rebuild_request(&self, slot: usize) -> Request {
        Request {
            slot: slot as u32,
            ..self.request(Call::Rebuild)
        }
    }

    /// Takes over the store, the marks and the record that a call left.
    pub fn take_over(&mut self, answer: &Answer) {
        self.take_flash(answer);
        self.wear = answer.parts.wear.clone();
    }

    /// Takes over the store and the marks alone: a call that is cut returns no
    /// record.
    pub fn take_flash(&mut self, answer: &Answer) {
        self.flash = Flash::new(self.sizes, &answer.parts.store, &answer.parts.marks);
    }

    pub fn run(&mut self, place: u32, budget: u32) -> Answer {
        let answer = answer(&self.run_request(place, budget));
        self.take_over(&answer);
        answer
    }

    pub fn mend(&mut self) -> Answer {
        let answer = answer(&self.request(Call::Mend));
        self.take_over(&answer);
        answer
    }

    pub fn is_dropped(&self, k: usize) -> bool {
        self.list[k] as usize == DROPPED
    }

    pub fn has_drops(&self) -> bool {
        (0..self.list.len()).any(|k| self.is_dropped(k))
    }

    /// Where the completed list sends each original.
    pub fn destinations(&self) -> Vec<usize> {
        let entries: Vec<usize> = self.list.iter().map(|&entry| entry as usize).collect();
        completed::<Correct>(&entries)
    }

    /// What original k counts as: its bytes, or 255s if it is dropped.
    pub fn page(&self, k: usize) -> Vec<u8> {
        let bytes = self.sizes.bytes();
        match self.is_dropped(k) {
            true => vec![255; bytes],
            false => self.originals[k * bytes..(k + 1) * bytes].to_vec(),
        }
    }
}

/// All pairs n, m with n x m up to a limit, smallest first.
pub fn small_shapes(limit: u32) -> Vec<(u32, u32)> {
    let mut shapes = vec![];
    for product in 1..=limit {
        let divisors = (1..=product).filter(|n| product % n == 0);
        shapes.extend(divisors.map(|n| (n, product / n)));
    }
    shapes
}
