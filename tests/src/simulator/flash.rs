//! The flash: the bytes and the mark of each page, in slot order.

use super::sizes::{Sizes, UNWRITTEN};
use std::ops::Range;

#[derive(Clone, Debug, PartialEq)]
pub struct Flash {
    pub sizes: Sizes,
    pub store: Vec<u8>,
    pub marks: Vec<u8>,
}

impl Flash {
    /// The flash as lent; a mover that takes longer parts leaves the rest.
    pub fn new(sizes: Sizes, store: &[u8], marks: &[u8]) -> Flash {
        Flash {
            sizes,
            store: store[..sizes.slots() * sizes.bytes()].to_vec(),
            marks: marks[..sizes.slots()].to_vec(),
        }
    }

    /// At rest: the data blocks are full of s, and the spare is blank.
    pub fn at_rest(sizes: Sizes, originals: &[u8]) -> Flash {
        let spare = vec![255; sizes.pages() * sizes.bytes()];
        let unwritten = vec![UNWRITTEN; sizes.pages()];
        let written = vec![sizes.letter(0); sizes.originals()];
        Flash {
            sizes,
            store: [&spare[..], originals].concat(),
            marks: [unwritten, written].concat(),
        }
    }

    fn byte_range(&self, slot: usize) -> Range<usize> {
        slot * self.sizes.bytes()..(slot + 1) * self.sizes.bytes()
    }

    pub fn page(&self, slot: usize) -> &[u8] {
        &self.store[self.byte_range(slot)]
    }

    pub fn put_page(&mut self, slot: usize, mark: u8, bytes: &[u8]) {
        let range = self.byte_range(slot);
        self.store[range].copy_from_slice(bytes);
        self.marks[slot] = mark;
    }

    pub fn block_slots(&self, block: usize) -> Range<usize> {
        self.sizes.slot(block, 0)..self.sizes.slot(block + 1, 0)
    }

    pub fn all_bytes_255(&self, slot: usize) -> bool {
        self.page(slot).iter().all(|&byte| byte == 255)
    }

    pub fn is_blank(&self, slot: usize) -> bool {
        self.marks[slot] == UNWRITTEN && self.all_bytes_255(slot)
    }

    pub fn block_is_blank(&self, block: usize) -> bool {
        self.block_slots(block).all(|slot| self.is_blank(slot))
    }

    /// "Whole": programmed to its end, so that its generation tag is valid.
    pub fn is_whole(&self, slot: usize) -> bool {
        self.marks[slot] <= 2
    }

    /// "Full": the block is programmed to its last page in one generation.
    pub fn full_of(&self, block: usize, letter: u8) -> bool {
        let mut slots = self.block_slots(block);
        slots.all(|slot| self.is_whole(slot) && self.marks[slot] == letter)
    }

    pub fn unfinished(&self, block: usize) -> bool {
        !(0..=2).any(|letter| self.full_of(block, letter))
    }

    pub fn erase(&mut self, block: usize) {
        let blank = vec![255; self.sizes.bytes()];
        for slot in self.block_slots(block) {
            self.put_page(slot, UNWRITTEN, &blank);
        }
    }
}

pub fn add(total: &mut [u8], page: &[u8]) {
    for (to, from) in total.iter_mut().zip(page) {
        *to ^= from;
    }
}
