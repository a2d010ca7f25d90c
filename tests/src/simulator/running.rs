//! The run: one step after the other.

use super::dropping::sum;
use super::flash::Flash;
use super::permutation::Move;
use super::reading::terms_of;
use super::rules::Rules;
use super::steps::{all_steps, marks_at, Step};

/// Does the flash look as at this place?
pub fn place_fits<R: Rules>(flash: &Flash, place: usize) -> bool {
    let due = marks_at(&flash.sizes, place);
    let mut slots = 0..flash.sizes.slots();
    place <= flash.sizes.steps() && slots.all(|slot| R::page_fits(flash, slot, due[slot]))
}

/// A page in the making: its bytes, and how many stored pages were read for it.
pub struct Written {
    pub bytes: Vec<u8>,
    pub reads: u32,
}

/// Takes one step; a written page is handed back.
pub fn take_step<R: Rules>(moves: &Move, flash: &mut Flash, step: Step) -> Option<Written> {
    let sizes = moves.sizes;
    let (slot, mark, written) = match step {
        Step::Erase { block } => {
            flash.erase(block);
            return None;
        }
        Step::WriteCoded { block, page } => {
            let written = coded_page::<R>(moves, flash, page, block + 1);
            (sizes.slot(block, page), sizes.letter(1), written)
        }
        Step::WriteFinal { block, page } => {
            let written = rebuilt::<R>(moves, flash, moves.original_to(block, page));
            (sizes.slot(block, page), sizes.letter(2), written)
        }
    };
    flash.put_page(slot, R::mark_of(&written.bytes, mark), &written.bytes);
    Some(written)
}

/// An original by read's rules.
fn rebuilt<R: Rules>(moves: &Move, flash: &Flash, original: usize) -> Written {
    let terms = terms_of::<R>(moves, flash, original);
    Written {
        bytes: sum::<R>(flash, &terms),
        reads: R::reads(&terms),
    }
}

/// c(i) of a set, from the page that lies in block i and, unless i is the top
/// of its cycle, the page that goes there.
fn coded_page<R: Rules>(moves: &Move, flash: &Flash, set: usize, i: usize) -> Written {
    let own_term = R::own_term(moves, moves.original_from(set, i));
    let own = sum::<R>(flash, &[own_term]);
    let own_reads = R::own_reads(own_term);
    if R::top(&moves.cycle(set, i)) == i {
        return Written {
            bytes: R::coded_page(own, None),
            reads: R::coded_reads(own_reads, None),
        };
    }
    let coming = moves.original_from(set, moves.pred(set, i));
    let other = rebuilt::<R>(moves, flash, coming);
    Written {
        bytes: R::coded_page(own, Some(other.bytes)),
        reads: R::coded_reads(own_reads, Some(other.reads)),
    }
}

/// What a run did.
pub struct Progress {
    pub writes: u32,
    /// The blocks erased, in turn.
    pub erased: Vec<usize>,
    pub written_bytes: u32,
    /// The stored pages read for the pages written.
    pub pages_read: u32,
    pub last_page: Option<Vec<u8>>,
}

pub fn take_steps<R: Rules>(moves: &Move, flash: &mut Flash, place: u32, count: u32) -> Progress {
    let mut progress = Progress {
        writes: 0,
        erased: vec![],
        written_bytes: 0,
        pages_read: 0,
        last_page: None,
    };
    let steps = all_steps(&moves.sizes).into_iter();
    for step in steps.skip(place as usize).take(count as usize) {
        if let Step::Erase { block } = step {
            progress.erased.push(block);
        }
        if let Some(page) = take_step::<R>(moves, flash, step) {
            progress.writes += 1;
            progress.written_bytes += R::written_bytes(&page.bytes);
            progress.pages_read = R::reads_so_far(progress.pages_read, page.reads);
            progress.last_page = Some(page.bytes);
        }
    }
    progress
}
