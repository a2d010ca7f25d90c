//! The families of listings.

mod bytes;
mod lengths;
mod movers;
mod steps;
mod walks;

use super::compare::ListingComparer;
use crate::random::Random;

pub type Outcome = Result<(), String>;

pub struct Family {
    pub name: &'static str,
    pub cases: fn(&mut ListingComparer, &mut Random) -> Outcome,
}

pub static FAMILIES: [Family; 6] = [
    Family {
        name: "listings: sizes, lengths and lists",
        cases: lengths::cases,
    },
    Family {
        name: "listings: every byte of short ones",
        cases: bytes::cases,
    },
    Family {
        name: "listings: numbers and forms",
        cases: bytes::forms,
    },
    Family {
        name: "listings of the method and of other movers",
        cases: movers::cases,
    },
    Family {
        name: "listings with steps left out, exchanged, repeated, changed",
        cases: steps::cases,
    },
    Family {
        name: "listings of random steps",
        cases: walks::cases,
    },
];
