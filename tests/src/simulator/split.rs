//! The split of a list into sets.

use super::rules::Rules;
use super::sizes::Sizes;
use std::mem::replace;

/// A split in the making: pages already placed have a set.
pub struct Partial {
    /// The source and the destination block of each original.
    ends: Vec<(usize, usize)>,
    /// The originals from each block, and to each block.
    from: Vec<Vec<usize>>,
    to: Vec<Vec<usize>>,
    sets: Vec<Option<usize>>,
}

impl Partial {
    fn new(sizes: Sizes, destinations: &[usize]) -> Partial {
        let ends: Vec<(usize, usize)> = destinations
            .iter()
            .enumerate()
            .map(|(k, &number)| (sizes.block_of(k), sizes.block_of(number)))
            .collect();
        let mut from = vec![vec![]; sizes.data_blocks() + 1];
        let mut to = from.clone();
        for (k, &(source, destination)) in ends.iter().enumerate() {
            from[source].push(k);
            to[destination].push(k);
        }
        let sets = vec![None; ends.len()];
        Partial {
            ends,
            from,
            to,
            sets,
        }
    }

    fn of_set(&self, pages: &[usize], set: usize) -> Option<usize> {
        pages.iter().copied().find(|&k| self.sets[k] == Some(set))
    }

    /// The lowest set that none of a block's pages has.
    fn lowest_unused(&self, pages: &[usize]) -> usize {
        (0..pages.len())
            .find(|&set| self.of_set(pages, set).is_none())
            .expect("one page of the block is still without a set")
    }

    /// The pages met from a destination block on: its page of set a, then the
    /// page of set b from that page's source, and so on in turn.
    pub fn path_from_destination(&self, start: usize, a: usize, b: usize) -> Vec<usize> {
        let mut met = vec![];
        let mut block = start;
        while let Some(arriving) = self.of_set(&self.to[block], a) {
            // Only the sets of a faulty mover can lead round in a ring.
            if met.contains(&arriving) {
                break;
            }
            met.push(arriving);
            let Some(leaving) = self.of_set(&self.from[self.ends[arriving].0], b) else {
                break;
            };
            met.push(leaving);
            block = self.ends[leaving].1;
        }
        met
    }

    fn exchange(&mut self, pages: &[usize], a: usize, b: usize) {
        for &page in pages {
            let other = if self.sets[page] == Some(a) { b } else { a };
            self.sets[page] = Some(other);
        }
    }
}

/// The set of each original by the split call's rule.
pub fn split_by_rule<R: Rules>(sizes: Sizes, destinations: &[usize]) -> Vec<usize> {
    let mut partial = Partial::new(sizes, destinations);
    for k in 0..destinations.len() {
        let (source, destination) = partial.ends[k];
        let a = partial.lowest_unused(&partial.from[source]);
        let mut chosen = a;
        if partial.of_set(&partial.to[destination], a).is_some() {
            let b = partial.lowest_unused(&partial.to[destination]);
            let pages = R::exchanged(&partial, partial.ends[k], a, b);
            partial.exchange(&pages, a, b);
            chosen = R::set_after_exchange(a, b);
        }
        partial.sets[k] = Some(chosen);
    }
    partial.sets.into_iter().flatten().collect()
}

/// In each set a data block sends exactly one page, and gets exactly one: there
/// are as many pages as pairs of a set and a block, so that none may come twice.
pub fn is_split(sizes: &Sizes, destinations: &[usize], sets: &[u8]) -> bool {
    let mut sent = vec![false; sizes.slots()];
    let mut got = sent.clone();
    let first = |seen: &mut [bool], set: usize, block: usize| {
        let pair = seen.get_mut(sizes.slot(block, set));
        set < sizes.pages() && pair.is_some_and(|pair| !replace(pair, true))
    };
    let mut pages = sets.iter().zip(destinations).enumerate();
    let enough = pages.len() == sizes.originals();
    enough
        && pages.all(|(k, (&set, &number))| {
            let set = set as usize;
            first(&mut sent, set, sizes.block_of(k)) && first(&mut got, set, sizes.block_of(number))
        })
}
