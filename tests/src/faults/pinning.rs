//! Faults in what pins refuse, and when.

use super::refusing::{other_order, LooseLength};
use super::{fault, Fault};
use crate::simulator::dropping::DROPPED;
use crate::simulator::refusals::{order, Refusal};
use crate::simulator::request::{Answer, Call, Part, Request};
use crate::simulator::rules::{Correct, Rules};

const PINS: usize = Part::Pins as usize;

pub fn faults() -> Vec<Fault> {
    vec![
        fault::<RunAfterSplit>("run looks for 11 after 4"),
        fault::<ReadAfterSplit>("read looks for 11 after 4"),
        fault::<RunAtLast>("run looks for 11 after 5"),
        fault::<ReadAfterMarks>("read looks for 11 after 6"),
        fault::<ReadAtLast>("read looks for 11 after 7"),
        fault::<SplitBeforeList>("split looks at the pins before the list"),
        fault::<RunBeforeList>("run looks at the pins before the list"),
        fault::<BeforeLengths>("split looks at the pins before their length"),
        fault::<NotBySplit>("split leaves the pins out"),
        fault::<NotByRun>("run leaves the pins out"),
        fault::<NotByRead>("read leaves the pins out"),
        fault::<DropFirst>("the drop of a pinned page is looked at before its pin"),
        fault::<SplitDropFirst>("split alone takes a pinned page that is dropped"),
        fault::<ReadDropFirst>("read alone takes a pinned page that is dropped"),
        fault::<OnlyOnes>("only pin bytes of 1 are taken"),
        fault::<LowestBit>("only the lowest bit of a pin is looked at"),
        fault::<Signed>("pin bytes above 127 are taken for none"),
        fault::<StayingRefused>("a pinned page is refused though it stays"),
        fault::<AnyMoveRefused>("pins refuse every list that moves a page"),
        fault::<LowByte>("only the low byte of a pinned page's entry is compared"),
        fault::<SameBlock>("a pinned page may move within its block"),
        fault::<ButTheFirst>("the first page's pin is not looked at"),
        fault::<ButTheLast>("the last page's pin is not looked at"),
        fault::<AnyLength>("the length of the pins is not looked at"),
        fault::<LooseLength<PINS, 1>>("pins one byte too long are taken"),
        fault::<LooseLength<PINS, -1>>("pins one byte too short are taken"),
        fault::<FillsRefused>("split fills the sets of a list that moves a pinned page"),
    ]
}

other_order!(
    RunAfterSplit,
    Call::Run,
    [Sizes, Lengths, List, Split, Pinned, Place]
);
other_order!(
    ReadAfterSplit,
    Call::Read,
    [Sizes, Lengths, List, Split, Pinned, Marks, Original]
);
other_order!(
    RunAtLast,
    Call::Run,
    [Sizes, Lengths, List, Split, Place, Pinned]
);
other_order!(
    ReadAfterMarks,
    Call::Read,
    [Sizes, Lengths, List, Split, Marks, Pinned, Original]
);
other_order!(
    ReadAtLast,
    Call::Read,
    [Sizes, Lengths, List, Split, Marks, Original, Pinned]
);
other_order!(SplitBeforeList, Call::Split, [Sizes, Lengths, Pinned, List]);
other_order!(
    RunBeforeList,
    Call::Run,
    [Sizes, Lengths, Pinned, List, Split, Place]
);
other_order!(BeforeLengths, Call::Split, [Sizes, Pinned, Lengths, List]);
other_order!(NotBySplit, Call::Split, [Sizes, Lengths, List]);
other_order!(NotByRun, Call::Run, [Sizes, Lengths, List, Split, Place]);
other_order!(
    NotByRead,
    Call::Read,
    [Sizes, Lengths, List, Split, Marks, Original]
);

struct OnlyOnes;

impl Rules for OnlyOnes {
    fn is_pinned(byte: u8) -> bool {
        byte == 1
    }
}

struct LowestBit;

impl Rules for LowestBit {
    fn is_pinned(byte: u8) -> bool {
        byte & 1 == 1
    }
}

struct Signed;

impl Rules for Signed {
    fn is_pinned(byte: u8) -> bool {
        byte as i8 > 0
    }
}

/// Is some page pinned of which this is so, by its number and its entry?
fn some_pinned(request: &Request, so: impl Fn(usize, usize) -> bool) -> bool {
    let numbers = request.entries();
    let mut pages = numbers.iter().zip(&request.parts.pins).enumerate();
    pages.any(|(k, (&number, &pin))| pin != 0 && so(k, number))
}

/// As it was before request (xii).
pub struct DropFirst;

impl Rules for DropFirst {
    fn moves_pinned(request: &Request) -> bool {
        some_pinned(request, |k, number| k != number && number != DROPPED)
    }
}

struct SplitDropFirst;

impl Rules for SplitDropFirst {
    fn moves_pinned(request: &Request) -> bool {
        match request.call {
            Call::Split => DropFirst::moves_pinned(request),
            _ => Correct::moves_pinned(request),
        }
    }
}

struct ReadDropFirst;

impl Rules for ReadDropFirst {
    fn moves_pinned(request: &Request) -> bool {
        match request.call {
            Call::Read => DropFirst::moves_pinned(request),
            _ => Correct::moves_pinned(request),
        }
    }
}

struct StayingRefused;

impl Rules for StayingRefused {
    fn moves_pinned(request: &Request) -> bool {
        some_pinned(request, |_, _| true)
    }
}

struct AnyMoveRefused;

impl Rules for AnyMoveRefused {
    fn moves_pinned(request: &Request) -> bool {
        let mut numbers = request.entries().into_iter().enumerate();
        some_pinned(request, |_, _| true) && numbers.any(|(k, number)| k != number)
    }
}

struct LowByte;

impl Rules for LowByte {
    fn moves_pinned(request: &Request) -> bool {
        some_pinned(request, |k, number| k % 256 != number % 256)
    }
}

struct SameBlock;

impl Rules for SameBlock {
    fn moves_pinned(request: &Request) -> bool {
        let block = |number| request.sizes.block_of(number);
        some_pinned(request, |k, number| block(k) != block(number))
    }
}

struct ButTheFirst;

impl Rules for ButTheFirst {
    fn moves_pinned(request: &Request) -> bool {
        some_pinned(request, |k, number| k != number && k > 0)
    }
}

struct ButTheLast;

impl Rules for ButTheLast {
    fn moves_pinned(request: &Request) -> bool {
        let last = request.sizes.originals() - 1;
        some_pinned(request, |k, number| k != number && k < last)
    }
}

struct AnyLength;

impl Rules for AnyLength {
    fn length_fits(part: Part, given: usize, due: u128) -> bool {
        part == Part::Pins || Correct::length_fits(part, given, due)
    }
}

struct FillsRefused;

impl Rules for FillsRefused {
    fn amend(request: &Request, answer: &mut Answer) {
        if request.call == Call::Split && answer.numbers.returned == 11 {
            answer.parts.sets.fill(0);
        }
    }
}
