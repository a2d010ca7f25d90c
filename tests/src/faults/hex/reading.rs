//! Faults in how the records of a text are put together.

use super::{but_for, fault, HexFault};
use crate::simulator::hex::calls::hex_answer_by;
use crate::simulator::hex::reader::{Reading, MALFORMED, OUTSIDE, SPAN, TWICE};
use crate::simulator::hex::record::{parse, Record};
use crate::simulator::hex::request::{HexAnswer, HexCall, HexRequest};
use crate::simulator::hex::rules::HexRules;
use crate::simulator::rules::Correct;
use std::ops::Range;

pub fn faults() -> Vec<HexFault> {
    [places(), orders(), results()]
        .into_iter()
        .flatten()
        .collect()
}

fn places() -> Vec<HexFault> {
    vec![
        fault::<OverSpans>("a record over a span is taken"),
        fault::<SpanEndRefused>("a record that ends with its span is refused"),
        fault::<Wrapped>("an address is counted modulo 2^32"),
        fault::<LowUpper>("the low byte of the upper half alone counts"),
        fault::<UpperOnce>("a second upper half is not looked at"),
        fault::<Segment>("the upper half is shifted by 4, as in type 02"),
        fault::<EndOutside>("a record that ends with the image is refused"),
    ]
}

but_for! {
    OverSpans {
        fn runs_over(_address: usize, _count: usize) -> bool {
            false
        }
    }
    SpanEndRefused {
        fn runs_over(address: usize, count: usize) -> bool {
            address + count >= SPAN
        }
    }
    Wrapped {
        fn verdict(reading: &Reading, line: &[u8]) -> Option<u32> {
            let fault = reading.fault::<Correct>(line);
            let wraps = match parse::<Correct>(line) {
                Some(Record::Data { address, bytes }) => {
                    Self::start(reading.upper, address) + bytes.len() > 1 << 32
                }
                _ => false,
            };
            fault.filter(|&number| number != OUTSIDE || !wraps)
        }
    }
    LowUpper {
        fn upper(given: usize) -> usize {
            given % 256
        }
    }
    Segment {
        fn start(upper: usize, address: usize) -> usize {
            upper * 16 + address
        }
    }
    EndOutside {
        fn verdict(reading: &Reading, line: &[u8]) -> Option<u32> {
            let ends = match parse::<Correct>(line) {
                Some(Record::Data { address, bytes }) => {
                    Self::start(reading.upper, address) + bytes.len() == reading.given.len()
                }
                _ => false,
            };
            reading.fault::<Correct>(line).or(ends.then_some(OUTSIDE))
        }
    }
}

/// It keeps the first upper half but 0.
struct UpperOnce;

impl HexRules for UpperOnce {
    fn verdict(reading: &Reading, line: &[u8]) -> Option<u32> {
        match parse::<Correct>(line) {
            Some(Record::Upper(upper)) if reading.upper != 0 && upper != reading.upper => {
                Some(MALFORMED)
            }
            _ => reading.fault::<Correct>(line),
        }
    }
}

fn orders() -> Vec<HexFault> {
    vec![
        fault::<NineBeforeEight>("9 is looked for before 8"),
        fault::<TenBeforeNine>("10 is looked for before 9"),
        fault::<TenBeforeEight>("10 is looked for before 8"),
        fault::<TwiceAtTheEnd>("a byte given twice is looked for after all records"),
        fault::<SecondEnd>("a second end record is taken"),
        fault::<FeedAfterEnd>("a line feed after the end record is taken"),
        fault::<MalformedAfterEnd>("a malformed record after the end is 8"),
        fault::<EndNotNeeded>("a text without an end record is taken"),
        fault::<EmptyTaken>("an empty text is taken"),
        fault::<StopsAtEnd>("what comes after the end record is not looked at"),
        fault::<LastGiven>("the last of two bytes in one place counts"),
        fault::<NeighboursOnly>("a byte given twice is seen in neighbouring records only"),
        fault::<SpanOnly>("a byte given twice is seen while the upper half stays"),
        fault::<NotInTheLast>("a byte given twice is not seen in the last of all spans"),
        fault::<FirstByteOnly>("only a record's first byte is looked for twice"),
        fault::<RisingOnly>("records that do not rise are refused"),
    ]
}

/// What only the checksum hides.
struct AnyChecksum;

impl HexRules for AnyChecksum {
    fn checksum_fits(_given: u8, _due: u8) -> bool {
        true
    }
}

/// Where the bytes of a data record lie.
fn places_of(reading: &Reading, line: &[u8]) -> Range<usize> {
    match parse::<AnyChecksum>(line) {
        Some(Record::Data { address, bytes }) => {
            let start = Correct::start(reading.upper, address);
            start..start + bytes.len()
        }
        _ => 0..0,
    }
}

fn is_given(reading: &Reading, place: usize) -> bool {
    reading.given.get(place).copied().flatten().is_some()
}

/// The same fault with 10 as if it had not been found.
fn unless_twice(reading: &Reading, line: &[u8], unseen: bool) -> Option<u32> {
    let fault = reading.fault::<Correct>(line);
    fault.filter(|&number| number != TWICE || reading.ended || !unseen)
}

but_for! {
    NineBeforeEight {
        fn verdict(reading: &Reading, line: &[u8]) -> Option<u32> {
            let early = reading.fault::<AnyChecksum>(line).filter(|&number| number == OUTSIDE);
            early.or_else(|| reading.fault::<Correct>(line))
        }
    }
    TenBeforeNine {
        fn verdict(reading: &Reading, line: &[u8]) -> Option<u32> {
            let fault = reading.fault::<Correct>(line)?;
            let twice = places_of(reading, line).any(|place| is_given(reading, place));
            Some(if fault == OUTSIDE && twice { TWICE } else { fault })
        }
    }
    TenBeforeEight {
        fn verdict(reading: &Reading, line: &[u8]) -> Option<u32> {
            let early = reading.fault::<AnyChecksum>(line).filter(|&number| number == TWICE);
            early.or_else(|| reading.fault::<Correct>(line))
        }
    }
    SecondEnd {
        fn verdict(reading: &Reading, line: &[u8]) -> Option<u32> {
            let end = parse::<Correct>(line) == Some(Record::End);
            reading.fault::<Correct>(line).filter(|_| !reading.ended || !end)
        }
    }
    FeedAfterEnd {
        fn verdict(reading: &Reading, line: &[u8]) -> Option<u32> {
            reading.fault::<Correct>(line).filter(|_| !reading.ended || line != b"\n")
        }
    }
    MalformedAfterEnd {
        fn verdict(reading: &Reading, line: &[u8]) -> Option<u32> {
            let fault = reading.fault::<Correct>(line)?;
            let malformed = parse::<Correct>(line).is_none();
            Some(if malformed { MALFORMED } else { fault })
        }
    }
    EndNotNeeded {
        const NEEDS_END: bool = false;
    }
    EmptyTaken {
        fn amend(request: &HexRequest, answer: &mut HexAnswer) {
            if request.call == HexCall::Read && answer.returned == TWICE && request.parts.text.is_empty() {
                answer.returned = 0;
            }
        }
    }
    StopsAtEnd {
        fn verdict(reading: &Reading, line: &[u8]) -> Option<u32> {
            reading.fault::<Correct>(line).filter(|_| !reading.ended)
        }
    }
    LastGiven {
        fn verdict(reading: &Reading, line: &[u8]) -> Option<u32> {
            unless_twice(reading, line, true)
        }
    }
    SpanOnly {
        fn verdict(reading: &Reading, line: &[u8]) -> Option<u32> {
            unless_twice(reading, line, reading.upper != 0)
        }
    }
    NotInTheLast {
        fn verdict(reading: &Reading, line: &[u8]) -> Option<u32> {
            unless_twice(reading, line, reading.upper == 255)
        }
    }
    FirstByteOnly {
        fn verdict(reading: &Reading, line: &[u8]) -> Option<u32> {
            let first = is_given(reading, places_of(reading, line).start);
            unless_twice(reading, line, !first)
        }
    }
    NeighboursOnly {
        fn verdict(reading: &Reading, line: &[u8]) -> Option<u32> {
            let places = places_of(reading, line);
            let around = is_given(reading, places.start.saturating_sub(1)) || is_given(reading, places.end);
            unless_twice(reading, line, around)
        }
    }
    RisingOnly {
        fn verdict(reading: &Reading, line: &[u8]) -> Option<u32> {
            let places = places_of(reading, line);
            let later = (places.end..reading.given.len()).any(|place| is_given(reading, place));
            let falls = !places.is_empty() && later;
            reading.fault::<Correct>(line).or(falls.then_some(TWICE))
        }
    }
    // An 8 or 9 on a later record then goes first.
    TwiceAtTheEnd {
        fn amend(request: &HexRequest, answer: &mut HexAnswer) {
            if request.call == HexCall::Read && answer.returned == TWICE {
                let later = hex_answer_by::<LastGiven>(request).returned;
                if later == MALFORMED || later == OUTSIDE {
                    answer.returned = later;
                }
            }
        }
    }
}

fn results() -> Vec<HexFault> {
    vec![
        fault::<Zeros>("bytes not given are 0"),
        fault::<OldBytes>("bytes not given stay as they were"),
        fault::<SpareStays>("the spare stays as it was"),
        fault::<SpareMarked>("the spare's marks are 0"),
        fault::<OldMarks>("the marks stay as they were"),
        fault::<OtherMark>("the data blocks get mark 2"),
        fault::<FromBlockZero>("address 0 is the first byte of the spare"),
        fault::<DigitsSwapped>("the low digit is taken first"),
    ]
}

fn is_read(request: &HexRequest, answer: &HexAnswer) -> bool {
    request.call == HexCall::Read && answer.returned == 0
}

but_for! {
    Zeros {
        const NOT_GIVEN: u8 = 0;
    }
    OldBytes {
        fn amend(request: &HexRequest, answer: &mut HexAnswer) {
            if is_read(request, answer) {
                for (new, old) in answer.parts.store.iter_mut().zip(&request.parts.store) {
                    *new = if *new == 255 { *old } else { *new };
                }
            }
        }
    }
    SpareStays {
        fn amend(request: &HexRequest, answer: &mut HexAnswer) {
            if is_read(request, answer) {
                let spare = request.sizes.spare_bytes();
                answer.parts.store[..spare].copy_from_slice(&request.parts.store[..spare]);
            }
        }
    }
    SpareMarked {
        fn amend(request: &HexRequest, answer: &mut HexAnswer) {
            if is_read(request, answer) {
                answer.parts.marks.fill(0);
            }
        }
    }
    OldMarks {
        fn amend(request: &HexRequest, answer: &mut HexAnswer) {
            answer.parts.marks.clone_from(&request.parts.marks);
        }
    }
    OtherMark {
        const MARK: u8 = 2;
    }
    FromBlockZero {
        fn amend(request: &HexRequest, answer: &mut HexAnswer) {
            if is_read(request, answer) {
                answer.parts.store.rotate_left(request.sizes.spare_bytes());
            }
        }
    }
    DigitsSwapped {
        fn amend(request: &HexRequest, answer: &mut HexAnswer) {
            if is_read(request, answer) {
                for byte in &mut answer.parts.store {
                    *byte = byte.rotate_left(4);
                }
            }
        }
    }
}
