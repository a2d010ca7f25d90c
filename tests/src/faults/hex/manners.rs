//! Faults at the interface of the HEX calls.

use super::exports::{hex_calls, HexManners};
use super::HexFault;
use crate::faults::exports::Raw;
use crate::simulator::hex::request::{HexCall, HexPart};
use crate::simulator::rules::Correct;

const TEXT: usize = HexPart::Text as usize;
const STORE: usize = HexPart::Store as usize;
const MARKS: usize = HexPart::Marks as usize;

pub fn faults() -> Vec<HexFault> {
    vec![
        rude::<Behind<TEXT>>("a byte behind the HEX text is written"),
        rude::<Behind<STORE>>("a byte behind the store is written by a HEX call"),
        rude::<Behind<MARKS>>("a byte behind the marks is written by a HEX call"),
        rude::<Before<TEXT>>("a byte before the HEX text is written"),
        rude::<Before<STORE>>("a byte before the store is written by a HEX call"),
        rude::<Before<MARKS>>("a byte before the marks is written by a HEX call"),
        rude::<ReadsOn>("a byte behind the HEX text is read"),
        rude::<Inside<TEXT>>("the HEX text that is read is changed"),
        rude::<Inside<STORE>>("the store that a HEX text is written of is changed"),
        rude::<Inside<MARKS>>("the marks that a HEX text is written of are changed"),
    ]
}

fn rude<M: HexManners>(name: &'static str) -> HexFault {
    let calls = hex_calls::<Correct, M>();
    HexFault { name, calls }
}

struct Behind<const PART: usize>;

impl<const PART: usize> HexManners for Behind<PART> {
    unsafe fn harm(_call: HexCall, part: HexPart, raw: Raw) {
        if part as usize == PART {
            *raw.start.add(raw.len) = 0;
        }
    }
}

struct Before<const PART: usize>;

impl<const PART: usize> HexManners for Before<PART> {
    unsafe fn harm(_call: HexCall, part: HexPart, raw: Raw) {
        if part as usize == PART {
            *raw.start.sub(1) = 0;
        }
    }
}

struct ReadsOn;

impl HexManners for ReadsOn {
    fn seen(part: HexPart, len: usize) -> usize {
        len + (part == HexPart::Text) as usize
    }
}

/// A part that the call only reads.
struct Inside<const PART: usize>;

impl<const PART: usize> HexManners for Inside<PART> {
    unsafe fn harm(call: HexCall, part: HexPart, raw: Raw) {
        let is_read = (call == HexCall::Read) == (part == HexPart::Text);
        if part as usize == PART && is_read && raw.len > 0 {
            *raw.start.add(raw.len - 1) ^= 1;
        }
    }
}
