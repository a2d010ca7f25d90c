//! Random steps from rest: sums of any originals into any page, and erases.

use super::Outcome;
use crate::harness::listing::compare::ListingComparer;
use crate::random::Random;
use crate::simulator::listing::lines::Sizes;
use crate::simulator::listing::method::{listing, Entry};
use crate::simulator::listing::request::ListingRequest;
use crate::simulator::listing::rules::ListingRules;
use crate::simulator::listing::state::{sum_of, State};
use crate::simulator::rules::Correct;

const WALKS: usize = 3000;

pub fn cases(comparer: &mut ListingComparer, random: &mut Random) -> Outcome {
    for walk in 0..WALKS {
        let widest = 2 + 4 * walk / WALKS;
        let (n, m) = (random.between(1, widest), random.between(1, widest));
        let careful = random.one_in(2);
        let entries = steps(n, m, careful, random);
        let text = listing(&entries);
        let identity: Vec<u16> = (0..(n * m) as u16).collect();
        comparer.compare(&ListingRequest::new(n, m, &identity, &text))?;
        let other = random.permutation(n * m);
        comparer.compare(&ListingRequest::new(n, m, &other, &text))?;
        let steps = text.lines().count() - 1;
        let endless: Vec<&str> = text.split_inclusive('\n').take(steps).collect();
        comparer.compare(&ListingRequest::new(n, m, &identity, &endless.concat()))?;
    }
    Ok(())
}

/// A careful walk writes to blank pages, mostly in order, and erases mostly
/// where nothing is lost, so that it goes far.
fn steps(n: usize, m: usize, careful: bool, random: &mut Random) -> Vec<Entry> {
    let sizes = Sizes {
        blocks: n + 1,
        pages: m,
        originals: n * m,
    };
    let mut state = State::at_rest(&sizes);
    let mut entries = vec![];
    for _ in 0..random.between(0, 8 * n * m + 4) {
        let (block, page) = (random.below(n + 1), random.below(m));
        if random.one_in(3) {
            let mut erased = state.clone();
            erased.erase(block);
            let kept = Correct::all_determined(&erased, n * m);
            if careful && !kept && !random.one_in(200) {
                continue;
            }
            state = erased;
            entries.push(Entry::Erase(block));
        } else {
            if careful && !Correct::may_write(&state, block, page) && !random.one_in(200) {
                continue;
            }
            let originals = any_sum(n * m, random);
            state.write(block, page, sum_of(&originals));
            entries.push(Entry::Write(block, page, originals));
        }
    }
    entries
}

/// Often a single original, or two.
fn any_sum(count: usize, random: &mut Random) -> Vec<usize> {
    let mut originals = match random.below(4) {
        0 => vec![random.below(count)],
        1 => vec![random.below(count), random.below(count)],
        _ => (0..count).filter(|_| random.one_in(3)).collect(),
    };
    originals.push(random.below(count));
    originals.sort();
    originals.dedup();
    originals
}
