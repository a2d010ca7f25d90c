//! Pages to throw away: which they are, where they end, and what they add to a sum.

use super::flash::{add, Flash};
use super::rules::Rules;

/// The entry of a page that nobody needs.
pub const DROPPED: usize = 65535;

/// The list with a place for each dropped page: the first of them gets the
/// first place that no page is sent to, and so on.
pub fn completed<R: Rules>(entries: &[usize]) -> Vec<usize> {
    let mut filled = vec![false; entries.len()];
    for &entry in entries.iter().filter(|&&entry| entry < entries.len()) {
        filled[entry] = true;
    }
    let free = (0..entries.len()).filter(|&place| !filled[place]).collect();
    let dropped = (0..entries.len()).filter(|&k| R::is_dropped(entries[k]));
    let mut list = entries.to_vec();
    for (k, place) in R::pairs(dropped.collect(), free) {
        list[k] = place;
    }
    list
}

/// What a sum is made of.
#[derive(Clone, Copy, Debug, PartialEq)]
pub enum Term {
    /// The page stored in this slot.
    Stored(usize),
    /// What every dropped page counts as.
    Dropped,
}

/// The bytewise exclusive-or of these terms.
pub fn sum<R: Rules>(flash: &Flash, terms: &[Term]) -> Vec<u8> {
    let bytes = flash.sizes.bytes();
    let mut total = vec![0; bytes];
    for term in terms {
        match term {
            Term::Stored(slot) => add(&mut total, flash.page(*slot)),
            Term::Dropped => add(&mut total, &vec![R::DROPPED_BYTE; bytes]),
        }
    }
    total
}

/// The slots among these terms.
pub fn stored(terms: &[Term]) -> Vec<usize> {
    let slot = |term: &Term| match term {
        Term::Stored(slot) => Some(*slot),
        Term::Dropped => None,
    };
    terms.iter().filter_map(slot).collect()
}

/// The pages of these slots as terms.
pub fn stored_in(slots: &[usize]) -> Vec<Term> {
    slots.iter().map(|&slot| Term::Stored(slot)).collect()
}
