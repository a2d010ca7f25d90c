//! Faults in reading.

use super::{fault, Fault};
use crate::simulator::calls::move_of;
use crate::simulator::flash::Flash;
use crate::simulator::permutation::Move;
use crate::simulator::request::{Answer, Call, Request};
use crate::simulator::rules::{Correct, Rules};
use crate::simulator::sizes::UNWRITTEN;

pub fn faults() -> Vec<Fault> {
    vec![
        fault::<ForwardTestsOwnBlock>("rule 3 tests block v, not its destination"),
        fault::<BackByTopAlone>("rule 2 forgets the blocks full of s"),
        fault::<BackByRestAlone>("rule 2 forgets where c(top) lies"),
        fault::<CountWithoutLast>("read does not count the last page"),
        fault::<SumsHalfWritten>("read sums a page with a half-written mark"),
        fault::<ByBytes>("read copies a torn page that still holds the original"),
    ]
}

struct ForwardTestsOwnBlock;

impl Rules for ForwardTestsOwnBlock {
    fn forward_ends(_moves: &Move, flash: &Flash, _set: usize, v: usize) -> bool {
        flash.full_of(v, flash.sizes.letter(2))
    }
}

struct BackByTopAlone;

impl Rules for BackByTopAlone {
    fn goes_back(flash: &Flash, top: usize) -> bool {
        flash.full_of(top - 1, flash.sizes.letter(1))
    }
}

struct BackByRestAlone;

impl Rules for BackByRestAlone {
    fn goes_back(flash: &Flash, _top: usize) -> bool {
        let mut blocks = 0..=flash.sizes.data_blocks();
        blocks.any(|block| flash.full_of(block, flash.sizes.letter(0)))
    }
}

struct CountWithoutLast;

impl Rules for CountWithoutLast {
    fn amend(request: &Request, answer: &mut Answer) {
        if request.call == Call::Read && answer.numbers.count > 1 {
            answer.numbers.count -= 1;
        }
    }
}

/// The page at its old place, where the mark still tells that one was there.
struct SumsHalfWritten;

impl Rules for SumsHalfWritten {
    fn amend(request: &Request, given: &mut Answer) {
        if request.call != Call::Read || given.numbers.returned != 0 {
            return;
        }
        let flash = Flash::new(request.sizes, &request.parts.store, &request.parts.marks);
        let slot = flash.sizes.slot_of(request.original as usize);
        if !flash.is_whole(slot) && flash.marks[slot] != UNWRITTEN {
            given.parts.work = flash.page(slot).to_vec();
            given.numbers.count = 1;
        }
    }
}

/// The page is right, but other pages are summed than under the same marks
/// with other bytes.
struct ByBytes;

impl Rules for ByBytes {
    fn amend(request: &Request, given: &mut Answer) {
        if request.call != Call::Read || given.numbers.returned != 0 {
            return;
        }
        let flash = Flash::new(request.sizes, &request.parts.store, &request.parts.marks);
        let moves = move_of::<Correct>(request);
        let original = request.original as usize;
        let slots = [
            flash.sizes.slot_of(original),
            moves.destination_slot(original),
        ];
        let still_there =
            |&slot: &usize| !flash.is_whole(slot) && flash.page(slot) == given.parts.work;
        if given.numbers.count > 0 && slots.iter().any(still_there) {
            given.numbers.count = 1;
        }
    }
}
