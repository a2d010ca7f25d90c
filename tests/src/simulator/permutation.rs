//! What a list and its split say: who goes where, and in which cycle.

use super::sizes::Sizes;

/// A "set" is a block-permutation set of the paper: each data block sends one
/// of its pages and gets one, so it is a permutation of the blocks.
pub struct Move {
    pub sizes: Sizes,
    /// Of the completed list.
    destinations: Vec<usize>,
    dropped: Vec<bool>,
    sets: Vec<usize>,
    /// The original from each block, by set and block; entry 0 is the spare's
    /// and not used.
    originals: Vec<Vec<usize>>,
}

impl Move {
    pub fn new(
        sizes: Sizes,
        destinations: Vec<usize>,
        dropped: Vec<bool>,
        sets: Vec<usize>,
    ) -> Move {
        let mut originals = vec![vec![0; sizes.data_blocks() + 1]; sizes.pages()];
        for (original, &set) in sets.iter().enumerate().take(destinations.len()) {
            originals[set][sizes.block_of(original)] = original;
        }
        Move {
            sizes,
            destinations,
            dropped,
            sets,
            originals,
        }
    }

    pub fn is_dropped(&self, original: usize) -> bool {
        self.dropped[original]
    }

    pub fn set_of(&self, original: usize) -> usize {
        self.sets[original]
    }

    /// D(block): the original that the set has from this block.
    pub fn original_from(&self, set: usize, block: usize) -> usize {
        self.originals[set][block]
    }

    /// The block where the set's page from this block goes.
    pub fn next(&self, set: usize, block: usize) -> usize {
        let original = self.original_from(set, block);
        self.sizes.block_of(self.destinations[original])
    }

    /// The block whose page of the set goes to this block.
    pub fn pred(&self, set: usize, block: usize) -> usize {
        (1..=self.sizes.data_blocks())
            .find(|&from| self.next(set, from) == block)
            .expect("a set has a page to each data block")
    }

    /// The blocks of the cycle through `start`, from `start` on as pages move.
    pub fn cycle(&self, set: usize, start: usize) -> Vec<usize> {
        let mut blocks = vec![start];
        let mut block = self.next(set, start);
        while block != start {
            blocks.push(block);
            block = self.next(set, block);
        }
        blocks
    }

    /// Where an original comes to lie.
    pub fn destination_slot(&self, original: usize) -> usize {
        self.sizes.slot_of(self.destinations[original])
    }

    /// The original that the list sends to page `page` of block `block`.
    pub fn original_to(&self, block: usize, page: usize) -> usize {
        let slot = self.sizes.slot(block, page);
        (0..self.sizes.originals())
            .find(|&original| self.destination_slot(original) == slot)
            .expect("a list sends a page to each data slot")
    }

    /// Where c(block) of a set lies between the two passes.
    pub fn coded_slot(&self, set: usize, block: usize) -> usize {
        self.sizes.slot(block - 1, set)
    }
}
