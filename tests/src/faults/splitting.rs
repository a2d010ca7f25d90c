//! Faults in the split.

use super::{fault, Fault};
use crate::simulator::request::{Answer, Call, Request};
use crate::simulator::rules::{Correct, Rules};
use crate::simulator::split::Partial;

pub fn faults() -> Vec<Fault> {
    vec![
        fault::<GivesB>("the page gets b after the exchange"),
        fault::<WrongEnd>("the exchange starts at the source"),
        fault::<FirstPageOnly>("only the first page is exchanged"),
        fault::<OtherNumbers>("a correct split with other numbers"),
        fault::<FillsRefused>("split fills the sets of a list it refuses"),
    ]
}

struct GivesB;

impl Rules for GivesB {
    fn set_after_exchange(_a: usize, b: usize) -> usize {
        b
    }
}

struct WrongEnd;

impl Rules for WrongEnd {
    fn exchanged(partial: &Partial, ends: (usize, usize), a: usize, b: usize) -> Vec<usize> {
        let (source, _destination) = ends;
        partial.path_from_destination(source, a, b)
    }
}

struct FirstPageOnly;

impl Rules for FirstPageOnly {
    fn exchanged(partial: &Partial, ends: (usize, usize), a: usize, b: usize) -> Vec<usize> {
        let mut pages = Correct::exchanged(partial, ends, a, b);
        pages.truncate(1);
        pages
    }
}

/// Run and read must take such a split, but the split call must not make it.
struct OtherNumbers;

impl Rules for OtherNumbers {
    fn amend(request: &Request, answer: &mut Answer) {
        if request.call == Call::Split && answer.numbers.returned == 0 {
            let last = request.sizes.m as u8 - 1;
            answer
                .parts
                .sets
                .iter_mut()
                .for_each(|set| *set = last - *set);
        }
    }
}

struct FillsRefused;

impl Rules for FillsRefused {
    fn amend(request: &Request, answer: &mut Answer) {
        if request.call == Call::Split && answer.numbers.returned == 3 {
            answer.parts.sets.fill(0);
        }
    }
}
