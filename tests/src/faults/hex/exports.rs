//! The simulator's HEX calls behind the C interface, with whatever rules.

use crate::faults::exports::Raw;
use crate::harness::interface::HexCalls;
use crate::simulator::hex::calls::hex_answer_by;
use crate::simulator::hex::request::{HexAnswer, HexCall, HexPart, HexParts, HexRequest};
use crate::simulator::hex::rules::HexRules;
use crate::simulator::sizes::Sizes;
use std::slice;

/// What a mover does with lent memory beside the rules.
pub trait HexManners {
    /// How much of a part is seen.
    fn seen(_part: HexPart, len: usize) -> usize {
        len
    }

    /// # Safety
    /// The part must lie inside a live buffer, with room on both sides.
    unsafe fn harm(_call: HexCall, _part: HexPart, _raw: Raw) {}
}

pub struct HexClean;

impl HexManners for HexClean {}

pub fn hex_calls<R: HexRules, M: HexManners>() -> HexCalls {
    HexCalls {
        read: read::<R, M>,
        write: write::<R, M>,
    }
}

type Loan = [(HexPart, Raw); 3];

fn lent(part: HexPart, start: *const u8, len: u64) -> (HexPart, Raw) {
    let start = start.cast_mut();
    let len = len as usize;
    (part, Raw { start, len })
}

/// Answers the request and lays back the parts that the call may change.
unsafe fn serve<R: HexRules, M: HexManners>(
    call: HexCall,
    [n, m, page_bytes]: [u32; 3],
    loan: Loan,
) -> u32 {
    let mut parts = HexParts::default();
    for (part, raw) in loan {
        let seen = M::seen(part, raw.len);
        *parts.get_mut(part) = slice::from_raw_parts(raw.start, seen).to_vec();
    }
    let sizes = Sizes {
        n,
        m,
        page_bytes,
        s: 0,
    };
    let request = HexRequest { call, sizes, parts };
    let HexAnswer { returned, parts } = hex_answer_by::<R>(&request);
    for (part, raw) in loan {
        let is_read = (call == HexCall::Read) == (part == HexPart::Text);
        if !is_read {
            raw.start.copy_from(parts.get(part).as_ptr(), raw.len);
        }
        M::harm(call, part, raw);
    }
    returned
}

unsafe extern "C" fn read<R: HexRules, M: HexManners>(
    n: u32,
    m: u32,
    page_bytes: u32,
    text: *const u8,
    text_len: u64,
    store: *mut u8,
    store_len: u64,
    marks: *mut u8,
    marks_len: u64,
) -> u32 {
    let loan = [
        lent(HexPart::Text, text, text_len),
        lent(HexPart::Store, store, store_len),
        lent(HexPart::Marks, marks, marks_len),
    ];
    serve::<R, M>(HexCall::Read, [n, m, page_bytes], loan)
}

unsafe extern "C" fn write<R: HexRules, M: HexManners>(
    n: u32,
    m: u32,
    page_bytes: u32,
    store: *const u8,
    store_len: u64,
    marks: *const u8,
    marks_len: u64,
    text: *mut u8,
    text_len: u64,
) -> u32 {
    let loan = [
        lent(HexPart::Store, store, store_len),
        lent(HexPart::Marks, marks, marks_len),
        lent(HexPart::Text, text, text_len),
    ];
    serve::<R, M>(HexCall::Write, [n, m, page_bytes], loan)
}
