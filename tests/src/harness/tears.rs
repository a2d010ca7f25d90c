//! The torn pages that a cut inside a step leaves.

use crate::random::Random;
use crate::simulator::cuts::{any_torn_mark, slots_at_risk, tear, Torn};
use crate::simulator::flash::Flash;
use crate::simulator::steps::Step;

/// The bytes of a torn page; nobody knows them beforehand.
#[derive(Clone, Copy, Debug)]
pub enum Unknown {
    AsBefore,
    LooksBlank,
    /// From this seed.
    Nonsense(u64),
}

impl Unknown {
    pub fn one_of_each(random: &mut Random) -> [Unknown; 3] {
        let nonsense = Unknown::Nonsense(random.number());
        [Unknown::AsBefore, Unknown::LooksBlank, nonsense]
    }

    pub fn any(random: &mut Random) -> Unknown {
        let kinds = Unknown::one_of_each(random);
        *random.pick(&kinds)
    }

    fn bytes(self, before: &[u8]) -> Vec<u8> {
        match self {
            Unknown::AsBefore => before.to_vec(),
            Unknown::LooksBlank => vec![255; before.len()],
            Unknown::Nonsense(seed) => Random::new(seed).bytes(before.len()),
        }
    }
}

/// A step begun and cut inside: the slots it tore, and what it left there.
#[derive(Clone, Debug)]
pub struct Begun {
    pub step: Step,
    pub torn: Vec<(Torn, Unknown)>,
}

impl Begun {
    pub fn tear(&self, flash: &mut Flash) {
        for &(torn, unknown) in &self.torn {
            tear(flash, torn, |before| unknown.bytes(before));
        }
    }

    /// Few torn pages as often as many, so that one alone is met in a big
    /// block too.
    pub fn random(flash: &Flash, step: Step, random: &mut Random) -> Begun {
        let mut slots = slots_at_risk(flash, step);
        if let Step::Erase { .. } = step {
            let alone = *random.pick(&slots);
            match random.below(4) {
                0 => slots.retain(|&slot| slot == alone),
                1 => slots.retain(|_| random.one_in(2)),
                2 => slots.retain(|_| !random.one_in(4)),
                _ => {}
            }
        }
        let left = |slot| ((slot, any_torn_mark(random)), Unknown::any(random));
        let torn = slots.into_iter().map(left).collect();
        Begun { step, torn }
    }
}
