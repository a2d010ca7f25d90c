//! Recovery: the place that the marks show after a cut.

use super::flash::Flash;

#[derive(Clone, Debug, PartialEq)]
pub struct Recovery {
    pub place: u32,
    /// The unfinished block, which must be erased.
    pub erase: Option<usize>,
}

/// The moment of the move that the marks show, if they fit one. A mark that
/// is no letter counts as not written, whichever it is.
pub fn find(flash: &Flash) -> Option<Recovery> {
    let blocks = 0..=flash.sizes.data_blocks();
    let unfinished: Vec<usize> = blocks.filter(|&b| flash.unfinished(b)).collect();
    match unfinished[..] {
        [] => between_blocks(flash),
        [block] => inside_block(flash, block),
        _ => None,
    }
}

/// Blocks `from` up to but not `to` are full of the tag `later` generations on.
fn all_full(flash: &Flash, from: usize, to: usize, later: u32) -> bool {
    (from..to).all(|block| flash.full_of(block, flash.sizes.letter(later)))
}

fn inside_block(flash: &Flash, block: usize) -> Option<Recovery> {
    let n = flash.sizes.data_blocks();
    let block_steps = flash.sizes.pages() + 1;
    let found = |blocks_done: usize| Recovery {
        place: (blocks_done * block_steps) as u32,
        erase: Some(block),
    };
    if !all_full(flash, 0, block, 1) {
        None
    } else if all_full(flash, block + 1, n + 1, 0) {
        Some(found(block))
    } else if all_full(flash, block + 1, n + 1, 2) {
        Some(found(2 * n - block))
    } else {
        None
    }
}

fn between_blocks(flash: &Flash) -> Option<Recovery> {
    let n = flash.sizes.data_blocks();
    let m = flash.sizes.pages();
    let found = |blocks_done: usize| Recovery {
        place: (blocks_done * (m + 1) + m) as u32,
        erase: None,
    };
    for i in 1..=n {
        let below = all_full(flash, 0, i, 1);
        if below && all_full(flash, i, n + 1, 0) {
            return Some(found(i - 1));
        }
        if below && all_full(flash, i, n + 1, 2) {
            return Some(found(2 * n - i));
        }
    }
    None
}
