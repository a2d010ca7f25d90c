//! Faults in what is refused, and in which order.

use super::{fault, Fault};
use crate::simulator::refusals::{order, Refusal};
use crate::simulator::request::{Answer, Call, Part, Request, ALL_PARTS};
use crate::simulator::rules::{Correct, Rules};
use crate::simulator::sizes::Sizes;

const LIST: usize = Part::List as usize;
const SETS: usize = Part::Sets as usize;
const STORE: usize = Part::Store as usize;
const MARKS: usize = Part::Marks as usize;
const WORK: usize = Part::Work as usize;

pub fn faults() -> Vec<Fault> {
    vec![
        fault::<LengthsBeforeSizes>("2 is looked for before 1"),
        fault::<ListBeforeLengths>("split looks for 3 before 2"),
        fault::<SplitBeforeList>("4 is looked for before 3"),
        fault::<PlaceBeforeSplit>("run looks for 5 before 4"),
        fault::<OriginalBeforeMarks>("read looks for 7 before 6"),
        fault::<LooseLength<LIST, 1>>("a list one byte too long is taken"),
        fault::<LooseLength<SETS, 1>>("sets one byte too long are taken"),
        fault::<LooseLength<STORE, 1>>("a store one byte too long is taken"),
        fault::<LooseLength<MARKS, 1>>("marks one byte too long are taken"),
        fault::<LooseLength<WORK, 1>>("a work page one byte too long is taken"),
        fault::<LooseLength<LIST, -1>>("a list one byte too short is taken"),
        fault::<LooseLength<SETS, -1>>("sets one byte too short are taken"),
        fault::<LooseLength<WORK, -1>>("a work page one byte too short is taken"),
        fault::<NarrowBlocks>("n = 64 is refused"),
        fault::<NarrowPages>("m = 64 is refused"),
        fault::<NarrowBytes>("P = 4,096 is refused"),
        fault::<WideBlocks>("n = 65 is taken"),
        fault::<WideBytes>("P = 4,097 is taken"),
        fault::<WideLetter>("s = 3 is taken"),
        fault::<TargetsUnchecked>("set bytes are taken with a block missed as destination"),
        fault::<OriginalAtTheEnd>("read takes original n x m"),
        fault::<RefusesAll>("everything is refused"),
    ]
}

/// The order of some calls is another.
macro_rules! other_order {
    ($fault:ident, $call:pat, $order:expr) => {
        struct $fault;
        impl Rules for $fault {
            fn refusal_order(call: Call) -> &'static [Refusal] {
                use Refusal::*;
                match call {
                    $call => &$order,
                    other => order(other),
                }
            }
        }
    };
}

pub(super) use other_order;

other_order!(LengthsBeforeSizes, Call::Mend, [Lengths, Sizes, Marks]);
other_order!(
    ListBeforeLengths,
    Call::Split,
    [Sizes, List, Lengths, Pinned]
);
other_order!(
    SplitBeforeList,
    Call::Run,
    [Sizes, Lengths, Split, List, Pinned, Place]
);
other_order!(
    PlaceBeforeSplit,
    Call::Run,
    [Sizes, Lengths, List, Pinned, Place, Split]
);
other_order!(
    OriginalBeforeMarks,
    Call::Read,
    [Sizes, Lengths, List, Pinned, Split, Original, Marks]
);

/// One part may also be `OFF` bytes longer.
pub(super) struct LooseLength<const PART: usize, const OFF: i128>;

impl<const PART: usize, const OFF: i128> Rules for LooseLength<PART, OFF> {
    fn length_fits(part: Part, given: usize, due: u128) -> bool {
        let loose = part == ALL_PARTS[PART] && given as i128 == due as i128 + OFF;
        loose || Correct::length_fits(part, given, due)
    }
}

struct NarrowBlocks;

impl Rules for NarrowBlocks {
    fn sizes_fit(sizes: &Sizes) -> bool {
        Correct::sizes_fit(sizes) && sizes.n < 64
    }
}

struct NarrowPages;

impl Rules for NarrowPages {
    fn sizes_fit(sizes: &Sizes) -> bool {
        Correct::sizes_fit(sizes) && sizes.m < 64
    }
}

struct NarrowBytes;

impl Rules for NarrowBytes {
    fn sizes_fit(sizes: &Sizes) -> bool {
        Correct::sizes_fit(sizes) && sizes.page_bytes < 4096
    }
}

struct WideBlocks;

impl Rules for WideBlocks {
    fn sizes_fit(sizes: &Sizes) -> bool {
        let n = if sizes.n == 65 { 64 } else { sizes.n };
        Correct::sizes_fit(&Sizes { n, ..*sizes })
    }
}

struct WideBytes;

impl Rules for WideBytes {
    fn sizes_fit(sizes: &Sizes) -> bool {
        let page_bytes = if sizes.page_bytes == 4097 {
            4096
        } else {
            sizes.page_bytes
        };
        Correct::sizes_fit(&Sizes {
            page_bytes,
            ..*sizes
        })
    }
}

struct WideLetter;

impl Rules for WideLetter {
    fn sizes_fit(sizes: &Sizes) -> bool {
        let s = if sizes.s == 3 { 0 } else { sizes.s };
        Correct::sizes_fit(&Sizes { s, ..*sizes })
    }
}

/// Only the pages from a block are looked at, not those to it.
struct TargetsUnchecked;

impl Rules for TargetsUnchecked {
    fn amend(request: &Request, answer: &mut Answer) {
        if answer.numbers.returned != 4 {
            return;
        }
        let fine = |block: &[u8]| {
            let mut sets = block.to_vec();
            sets.sort();
            sets.iter()
                .enumerate()
                .all(|(due, &set)| due == set as usize)
        };
        if request.parts.sets.chunks(request.sizes.pages()).all(fine) {
            answer.numbers.returned = 0;
        }
    }
}

struct OriginalAtTheEnd;

impl Rules for OriginalAtTheEnd {
    fn amend(request: &Request, answer: &mut Answer) {
        let at_end = request.original as usize == request.sizes.originals();
        if answer.numbers.returned == 7 && at_end {
            answer.numbers.returned = 0;
        }
    }
}

struct RefusesAll;

impl Rules for RefusesAll {
    fn sizes_fit(_sizes: &Sizes) -> bool {
        false
    }
}
