//! The sequence of steps, and the marks that each place has.

use super::sizes::{Sizes, UNWRITTEN};

#[derive(Clone, Copy, Debug, PartialEq)]
pub enum Step {
    /// Forward pass: a page of block `block` gets a coded page.
    WriteCoded {
        block: usize,
        page: usize,
    },
    /// Backward pass: a page of block `block` gets its new content.
    WriteFinal {
        block: usize,
        page: usize,
    },
    Erase {
        block: usize,
    },
}

/// All steps of a move in order.
pub fn all_steps(sizes: &Sizes) -> Vec<Step> {
    let mut steps = vec![];
    for i in 1..=sizes.data_blocks() {
        let block = i - 1;
        steps.extend((0..sizes.pages()).map(|page| Step::WriteCoded { block, page }));
        steps.push(Step::Erase { block: i });
    }
    for block in (1..=sizes.data_blocks()).rev() {
        steps.extend((0..sizes.pages()).map(|page| Step::WriteFinal { block, page }));
        steps.push(Step::Erase { block: block - 1 });
    }
    steps
}

/// The marks at a place: those at rest, changed by the steps before it.
pub fn marks_at(sizes: &Sizes, place: usize) -> Vec<u8> {
    let mut marks = vec![sizes.letter(0); sizes.slots()];
    marks[..sizes.pages()].fill(UNWRITTEN);
    for step in all_steps(sizes).into_iter().take(place) {
        match step {
            Step::WriteCoded { block, page } => marks[sizes.slot(block, page)] = sizes.letter(1),
            Step::WriteFinal { block, page } => marks[sizes.slot(block, page)] = sizes.letter(2),
            Step::Erase { block } => {
                marks[sizes.slot(block, 0)..sizes.slot(block + 1, 0)].fill(UNWRITTEN)
            }
        }
    }
    marks
}
