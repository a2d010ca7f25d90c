//! The listings of the paper's method, and of other movers, good and bad.

use super::Outcome;
use crate::harness::listing::compare::ListingComparer;
use crate::random::{all_permutations, Random};
use crate::scene::small_shapes;
use crate::simulator::listing::method::Entry;
use crate::simulator::listing::method::{by_copies, by_method, listing, sets_of, two_passes};
use crate::simulator::listing::request::ListingRequest;
use crate::simulator::rules::{Correct, Rules};

pub fn cases(comparer: &mut ListingComparer, random: &mut Random) -> Outcome {
    for (n, m) in small_shapes(5) {
        let (n, m) = (n as usize, m as usize);
        for list in all_permutations(n * m) {
            method(comparer, n, m, &list, random)?;
        }
    }
    for (n, m) in small_shapes(64) {
        let (n, m) = (n as usize, m as usize);
        let list = random.permutation(n * m);
        method(comparer, n, m, &list, random)?;
        copies(comparer, n, m, random)?;
    }
    Ok(())
}

/// Accepted for its own list, and for no other; with sets under other numbers;
/// and with the lowest block as top, which may lose pages.
fn method(
    comparer: &mut ListingComparer,
    n: usize,
    m: usize,
    list: &[u16],
    random: &mut Random,
) -> Outcome {
    let text = listing(&by_method(n, m, list));
    let answer = comparer.compare(&ListingRequest::new(n, m, list, &text))?;
    if answer.accepted != 1 {
        return Err(format!("the method's listing for {list:?} is not accepted"));
    }
    let other = random.permutation(n * m);
    comparer.compare(&ListingRequest::new(n, m, &other, &text))?;
    let labels = random.permutation(m);
    let sets = sets_of(n, m, list).into_iter();
    let sets: Vec<usize> = sets.map(|set| labels[set] as usize).collect();
    let relabelled = two_passes(n, m, list, sets.clone(), Correct::top);
    comparer.compare(&ListingRequest::new(n, m, list, &listing(&relabelled)))?;
    let lowest = |cycle: &[usize]| *cycle.iter().min().expect("a cycle has a block");
    let losing = two_passes(n, m, list, sets, lowest);
    comparer.compare(&ListingRequest::new(n, m, list, &listing(&losing)))?;
    Ok(())
}

/// Whole blocks that move by way of the spare; the same with each erase before
/// the copy; and with a copy left out.
fn copies(comparer: &mut ListingComparer, n: usize, m: usize, random: &mut Random) -> Outcome {
    let to = random.permutation(n);
    let mut list = vec![];
    for &block in &to {
        let pages = random.permutation(m);
        list.extend(pages.into_iter().map(|page| block * m as u16 + page));
    }
    let entries = by_copies(m, &to, &list);
    let text = listing(&entries);
    let answer = comparer.compare(&ListingRequest::new(n, m, &list, &text))?;
    if answer.accepted != 1 {
        return Err(format!(
            "the listing of copies for {list:?} is not accepted"
        ));
    }
    let tried = if n * m <= 12 { 40 } else { 3 };
    for _ in 0..tried.min(entries.len()) {
        let at = random.below(entries.len());
        if let Entry::Erase(_) = entries[at] {
            let mut early = entries.clone();
            early.swap(at, at - 1);
            comparer.compare(&ListingRequest::new(n, m, &list, &listing(&early)))?;
        }
        let mut fewer = entries.clone();
        fewer.remove(at);
        comparer.compare(&ListingRequest::new(n, m, &list, &listing(&fewer)))?;
    }
    Ok(())
}
