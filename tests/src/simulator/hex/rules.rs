//! The points of the HEX rules where a mover can easily differ. A seeded fault
//! overrides one of them.

use super::calls::{order, HexRefusal};
use super::reader::{Reading, SPAN};
use super::record::{typed, Fields, Record};
use super::request::{HexAnswer, HexCall, HexPart, HexRequest};
use super::writer::line;
use crate::simulator::flash::Flash;
use crate::simulator::rules::{Correct, Rules};
use crate::simulator::running::place_fits;
use crate::simulator::sizes::Sizes;

pub trait HexRules: Sized {
    const NOT_GIVEN: u8 = 255;
    const NEEDS_END: bool = true;
    const BYTES_A_RECORD: usize = 16;
    /// The mark of the data blocks after a reading.
    const MARK: u8 = 0;

    fn sizes_fit(sizes: &Sizes) -> bool {
        <Correct as Rules>::sizes_fit(sizes)
    }

    fn length_fits(_part: HexPart, given: usize, due: usize) -> bool {
        given == due
    }

    fn refusal_order(call: HexCall) -> &'static [HexRefusal] {
        order(call)
    }

    /// Digits of either case.
    fn digit(byte: u8) -> Option<u8> {
        (byte as char).to_digit(16).map(|digit| digit as u8)
    }

    /// A line ends with a line feed, before which a carriage return may stand.
    fn without_end(line: &[u8]) -> Option<&[u8]> {
        let line = line.strip_suffix(b"\n")?;
        Some(line.strip_suffix(b"\r").unwrap_or(line))
    }

    fn checksum_fits(given: u8, due: u8) -> bool {
        given == due
    }

    fn record(fields: Fields) -> Option<Record> {
        typed(fields)
    }

    fn upper(given: usize) -> usize {
        given
    }

    fn start(upper: usize, address: usize) -> usize {
        upper * SPAN + address
    }

    fn runs_over(address: usize, count: usize) -> bool {
        address + count > SPAN
    }

    fn verdict(reading: &Reading, line: &[u8]) -> Option<u32> {
        reading.fault::<Self>(line)
    }

    /// The upper half is 0 at first.
    fn upper_is_written(upper: usize) -> bool {
        upper != 0
    }

    fn written(kind: u8, address: u16, data: Vec<u8>) -> Vec<u8> {
        line(kind, address, data)
    }

    /// Would a run at place 0 with s = 0 take this flash?
    fn is_at_rest(flash: &Flash) -> bool {
        place_fits::<Correct>(flash, 0)
    }

    /// The last word on an answer; nothing to add when all is right.
    fn amend(_request: &HexRequest, _answer: &mut HexAnswer) {}
}

impl HexRules for Correct {}
