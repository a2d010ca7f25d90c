//! Faults that show only in lists of calls with cuts.

use super::{fault, Fault};
use crate::simulator::calls::answer;
use crate::simulator::flash::{add, Flash};
use crate::simulator::recovery::{find, Recovery};
use crate::simulator::request::{Answer, Call, Request};
use crate::simulator::rules::Rules;
use crate::simulator::sizes::{Sizes, UNWRITTEN};
use std::cell::{Cell, RefCell};

pub fn faults() -> Vec<Fault> {
    vec![
        fault::<TornOwnSplit>("read makes its own split between a cut and the recovery"),
        fault::<TwiceTorn>("read adds a page of a block torn in writing and in its recovery"),
        fault::<SixPagesAndLast>("mend looks at six pages of a block and the last one"),
        fault::<FromMemory>("a second recovery leaves the block to the first"),
        fault::<ErasesOnceMore>("the run after two recoveries erases once more"),
        fault::<GoesOn>("a run after the finish and two recoveries goes on"),
        fault::<CutCounted>("the recovery counts the erases of the run that was cut"),
    ]
}

/// Faults that the checks of demand 3 report by themselves, without the
/// simulator's answers, with words of the report; where the list of events decides
/// which of two checks is first, with those of either.
pub const BREAKING_DEMAND_3: [(&str, &str); 21] = [
    ("the lowest block is the top", "original"),
    ("a coded page lacks D(pred)", "original"),
    ("a dropped page is added as zeros", "original"),
    (
        "a coded page takes the stored bytes of a dropped D(i)",
        "original",
    ),
    (
        "a dropped plain page is summed from its stored bytes",
        "original",
    ),
    (
        "the 255s of a dropped page are counted",
        "at least 0 and at most 0",
    ),
    (
        "read does not count the last page",
        "the number of slots summed",
    ),
    (
        "read copies a torn page that still holds the original",
        "under the same marks",
    ),
    (
        "read adds a page of a block torn in writing and in its recovery",
        "original",
    ),
    (
        "the run after two recoveries erases once more",
        "erases, at most",
    ),
    (
        "a run after the finish and two recoveries goes on",
        "the finish is not final",
    ),
    (
        "mend gives place 0 after the finish",
        "finished is 0, due is 1",
    ),
    ("a full counter begins anew", "the counter of block"),
    ("the block below gets the erase", "the counter of block"),
    ("mend does not count its erase", "the counter of block"),
    ("a higher count replaces the count alone", "the pair is"),
    ("recovery leaves the pair", "the pair is"),
    (
        "a refused call clears the record",
        "a refusal changes the record",
    ),
    ("12 is not looked for", "not refused|worn past the limit"),
    ("one erase is added for every block", "worn past the limit"),
    (
        "the recovery counts the erases of the run that was cut",
        "the counter of block",
    ),
];

fn flash_of(request: &Request) -> Flash {
    Flash::new(request.sizes, &request.parts.store, &request.parts.marks)
}

fn done(request: &Request, answer: &Answer, call: Call) -> bool {
    request.call == call && answer.numbers.returned == 0
}

/// It takes a split made elsewhere and a block with three torn pages to show.
struct TornOwnSplit;

impl Rules for TornOwnSplit {
    fn amend(request: &Request, given: &mut Answer) {
        if !done(request, given, Call::Read) {
            return;
        }
        let flash = flash_of(request);
        let torn = |slot: &usize| !flash.is_whole(*slot) && !flash.is_blank(*slot);
        if (0..flash.sizes.slots()).filter(torn).count() > 2 {
            let mut own = request.clone();
            own.call = Call::Split;
            own.parts.sets = answer(&own).parts.sets;
            own.call = Call::Read;
            *given = answer(&own);
            given.parts.sets = request.parts.sets.clone();
        }
    }
}

/// No single cut leaves a block of the forward pass with its first page torn,
/// the next whole, and one behind it not written.
struct TwiceTorn;

impl Rules for TwiceTorn {
    fn amend(request: &Request, given: &mut Answer) {
        if !done(request, given, Call::Read) {
            return;
        }
        let flash = flash_of(request);
        let Some(block) = find(&flash).and_then(|recovery| recovery.erase) else {
            return;
        };
        let marks = &flash.marks[flash.block_slots(block)];
        let coded = flash.sizes.letter(1);
        let forward = flash.marks.last() == Some(&flash.sizes.letter(0));
        if forward && marks.len() > 2 && marks[..3] == [UNWRITTEN, coded, UNWRITTEN] {
            add(
                &mut given.parts.work,
                flash.page(flash.sizes.slot(block, 1)),
            );
        }
    }
}

/// Pages are written in ascending order, so that only a torn erase shows it.
struct SixPagesAndLast;

impl Rules for SixPagesAndLast {
    fn recovery(flash: &Flash) -> Option<Recovery> {
        let mut seen = flash.clone();
        for block in seen.marks.chunks_mut(flash.sizes.pages()) {
            let last = block.len() - 1;
            for page in 6..last {
                block[page] = block[5];
            }
        }
        find(&seen)
    }
}

/// What a mover with a memory holds of the calls since the last split or run.
#[derive(Clone, Copy, PartialEq)]
enum Memory {
    Nothing,
    Recovery,
    RecoveryAndRead,
    SecondRecovery,
}

thread_local! {
    static MEMORY: Cell<Memory> = const { Cell::new(Memory::Nothing) };
}

/// The memory before the call; the call is remembered.
fn memory(call: Call) -> Memory {
    let before = MEMORY.get();
    MEMORY.set(match (before, call) {
        (_, Call::Split | Call::Run) => Memory::Nothing,
        (Memory::Nothing, Call::Mend) => Memory::Recovery,
        (Memory::Recovery, Call::Read) => Memory::RecoveryAndRead,
        (Memory::RecoveryAndRead, Call::Mend) => Memory::SecondRecovery,
        (other, _) => other,
    });
    before
}

struct FromMemory;

impl Rules for FromMemory {
    fn amend(request: &Request, given: &mut Answer) {
        let known = memory(request.call) == Memory::RecoveryAndRead;
        if known && done(request, given, Call::Mend) {
            given.parts = request.parts.clone();
        }
    }
}

/// The block that the recovery has erased is blank, so that only the count
/// shows it.
struct ErasesOnceMore;

impl Rules for ErasesOnceMore {
    fn amend(request: &Request, given: &mut Answer) {
        let twice = memory(request.call) == Memory::SecondRecovery;
        if twice && done(request, given, Call::Run) {
            given.numbers.erases += 1;
        }
    }
}

/// The letter after the finish is taken for the one at rest of another move,
/// and its first block is erased; the numbers are those due.
struct GoesOn;

impl Rules for GoesOn {
    fn amend(request: &Request, given: &mut Answer) {
        let twice = memory(request.call) == Memory::SecondRecovery;
        let finished = done(request, given, Call::Run) && given.numbers.finished == 1;
        if twice && finished && given.numbers.steps == 0 {
            let s = (request.sizes.s + 2) % 3;
            let sizes = Sizes { s, ..request.sizes };
            let second_move = Request {
                sizes,
                place: 0,
                budget: request.budget.min(sizes.m + 1),
                ..request.clone()
            };
            given.parts = answer(&second_move).parts;
        }
    }
}

thread_local! {
    static RECORD: RefCell<Vec<u8>> = const { RefCell::new(vec![]) };
}

/// The record that the last run had when it was cut is kept, and the recovery
/// goes on from it; the caller has the one before.
struct CutCounted;

impl Rules for CutCounted {
    fn amend(request: &Request, given: &mut Answer) {
        if done(request, given, Call::Run) {
            RECORD.set(given.parts.wear.clone());
        }
        let kept = RECORD.take();
        if done(request, given, Call::Mend) && given.numbers.erases == 1 && !kept.is_empty() {
            let count = |wear: &[u8]| wear.iter().map(|&byte| u32::from(byte)).sum::<u32>();
            if count(&kept) == count(&request.parts.wear) + 1 {
                given.parts.wear = kept.clone();
            }
        }
        RECORD.set(kept);
    }
}
