//! Originals rebuilt without one page: which stored pages determine them is found
//! by elimination, and which of these are summed by read's rules first.

use super::dropping::stored;
use super::flash::Flash;
use super::permutation::Move;
use super::reading::terms_of;
use super::rules::Rules;
use super::steps::{all_steps, Step};

/// The originals of which each slot holds the sum at a place; a blank one holds
/// none.
pub fn sums_at<R: Rules>(moves: &Move, place: usize) -> Vec<Vec<usize>> {
    let sizes = moves.sizes;
    let mut sums = vec![vec![]; sizes.slots()];
    for original in 0..sizes.originals() {
        sums[sizes.slot_of(original)].push(original);
    }
    for step in all_steps(&sizes).into_iter().take(place) {
        match step {
            Step::WriteCoded { block, page: set } => {
                let i = block + 1;
                let mut blocks = vec![i];
                if R::top(&moves.cycle(set, i)) != i {
                    blocks.push(moves.pred(set, i));
                }
                let originals = blocks
                    .into_iter()
                    .map(|from| moves.original_from(set, from));
                sums[sizes.slot(block, set)] = originals.collect();
            }
            Step::WriteFinal { block, page } => {
                sums[sizes.slot(block, page)] = vec![moves.original_to(block, page)];
            }
            Step::Erase { block } => {
                sums[sizes.slot(block, 0)..sizes.slot(block + 1, 0)].fill(vec![]);
            }
        }
    }
    sums
}

/// The slots summed for each original; a lost one has none. All pages of a sum
/// are of one set, so that each set is looked at by itself.
pub fn slots_summed<R: Rules>(
    moves: &Move,
    flash: &Flash,
    place: usize,
    slot: usize,
) -> Vec<Option<Vec<usize>>> {
    let sizes = moves.sizes;
    let mut pages = vec![vec![]; sizes.pages()];
    let used = |block: &usize| R::is_used(flash, *block);
    let sums = sums_at::<R>(moves, place);
    for other in (0..=sizes.data_blocks())
        .filter(used)
        .flat_map(|block| flash.block_slots(block))
        .filter(|&other| !R::leaves_out(&sizes, slot, other))
    {
        let originals = &sums[other];
        if let Some(&first) = originals.first() {
            let blocks = originals.iter().map(|&k| bit(sizes.block_of(k)));
            pages[moves.set_of(first)].push((other, blocks.sum()));
        }
    }
    let known: Vec<Known> = pages.iter().map(|pages| Known::from(pages)).collect();
    (0..sizes.originals())
        .map(|original| {
            let by_read = stored(&terms_of::<R>(moves, flash, original));
            let found = known[moves.set_of(original)].sum_for(sizes.block_of(original));
            R::rebuilt_from(by_read, found, slot)
        })
        .collect()
}

/// Of one set the original from each block; the blocks of a sum are bits.
type Blocks = u64;

fn bit(block: usize) -> Blocks {
    1 << (block - 1)
}

/// What the pages of a set tell: rows that are sums of some of them, each with a
/// block that leads no other row.
struct Known {
    slots: Vec<usize>,
    /// The lead, the blocks, and the pages summed, as bits of `slots`.
    rows: Vec<(Blocks, Blocks, u128)>,
}

impl Known {
    fn from(pages: &[(usize, Blocks)]) -> Known {
        let mut known = Known {
            slots: pages.iter().map(|&(slot, _)| slot).collect(),
            rows: vec![],
        };
        for (index, &(_, blocks)) in pages.iter().enumerate() {
            let (blocks, summed) = known.reduced(blocks, 1 << index);
            if blocks != 0 {
                let lead = 1 << blocks.trailing_zeros();
                known.rows.push((lead, blocks, summed));
            }
        }
        known
    }

    /// Takes away each row whose lead is met, in the order in which they were
    /// found: none brings back the lead of one before it.
    fn reduced(&self, mut blocks: Blocks, mut summed: u128) -> (Blocks, u128) {
        for &(lead, others, pages) in &self.rows {
            if blocks & lead != 0 {
                blocks ^= others;
                summed ^= pages;
            }
        }
        (blocks, summed)
    }

    /// The slots whose sum is the original from this block alone.
    fn sum_for(&self, block: usize) -> Option<Vec<usize>> {
        let (left, summed) = self.reduced(bit(block), 0);
        let slots = self.slots.iter().enumerate();
        let taken = slots.filter(|&(index, _)| summed >> index & 1 == 1);
        (left == 0).then(|| taken.map(|(_, &slot)| slot).collect())
    }
}
