//! The families of cases, in the order of the comparison.

pub mod answers;
mod drops;
mod events;
mod every_cut;
mod half_written;
mod highest;
mod limits;
mod nonsense;
mod other_splits;
mod papers;
mod pins;
mod random_moves;
mod reads;
mod rebuilds;
mod refusals;
mod small_moves;
mod torn;
mod walk;
mod wear;
mod written_bytes;

use super::compare::{Comparer, Difference};
use crate::random::Random;

pub type Outcome = Result<(), Box<Difference>>;

pub struct Family {
    pub name: &'static str,
    pub cases: fn(&mut Comparer, &mut Random) -> Outcome,
}

const EVERY_CUT: Family = Family {
    name: "every cut of small moves",
    cases: every_cut::cases,
};

const EVENTS: Family = Family {
    name: "lists of events",
    cases: events::cases,
};

/// The families that look at demand 3 over whole lists.
pub static LISTS: [Family; 2] = [EVERY_CUT, EVENTS];

pub static FAMILIES: [Family; 20] = [
    Family {
        name: "refusals, one and two at once",
        cases: refusals::cases,
    },
    Family {
        name: "erase counters and their limit",
        cases: wear::cases,
    },
    Family {
        name: "the highest counter kept at hand",
        cases: highest::cases,
    },
    Family {
        name: "pages read in long cycles",
        cases: reads::cases,
    },
    Family {
        name: "rebuilt without one page",
        cases: rebuilds::cases,
    },
    Family {
        name: "all lists of n x m up to 6",
        cases: small_moves::cases,
    },
    Family {
        name: "all marks of up to 4 slots",
        cases: nonsense::all_marks,
    },
    Family {
        name: "nonsense bytes and marks",
        cases: nonsense::cases,
    },
    Family {
        name: "half-written marks",
        cases: half_written::cases,
    },
    Family {
        name: "torn pages",
        cases: torn::cases,
    },
    Family {
        name: "splits made by another rule",
        cases: other_splits::cases,
    },
    Family {
        name: "pinned pages",
        cases: pins::cases,
    },
    Family {
        name: "dropped pages",
        cases: drops::cases,
    },
    Family {
        name: "written bytes counted",
        cases: written_bytes::cases,
    },
    EVERY_CUT,
    EVENTS,
    Family {
        name: "the papers' lists, page by page",
        cases: papers::cases,
    },
    Family {
        name: "random moves",
        cases: random_moves::cases,
    },
    Family {
        name: "moves at the limits of the sizes",
        cases: limits::cases,
    },
    Family {
        name: "the biggest store",
        cases: limits::biggest_store,
    },
];
