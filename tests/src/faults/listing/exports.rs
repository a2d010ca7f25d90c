//! The simulator's check of listings behind the C interface, with whatever rules.

use crate::faults::exports::Raw;
use crate::harness::interface::ListingCall;
use crate::simulator::listing::calls::listing_answer_by;
use crate::simulator::listing::request::ListingRequest;
use crate::simulator::listing::rules::ListingRules;
use std::slice;

/// What a checker does with lent memory and numbers beside the rules.
pub trait ListingManners {
    /// How much of the text is seen.
    fn seen(len: usize) -> usize {
        len
    }

    /// Are the returned numbers set when the call returns this number?
    fn sets_numbers(_returned: u32) -> bool {
        true
    }

    /// # Safety
    /// The parts must lie inside live buffers, with room on both sides.
    unsafe fn harm(_list: Raw, _text: Raw) {}
}

pub struct ListingClean;

impl ListingManners for ListingClean {}

pub fn listing_call<R: ListingRules, M: ListingManners>() -> ListingCall {
    check::<R, M>
}

fn raw(start: *const u8, len: u64) -> Raw {
    Raw {
        start: start.cast_mut(),
        len: len as usize,
    }
}

unsafe extern "C" fn check<R: ListingRules, M: ListingManners>(
    n: u32,
    m: u32,
    list: *const u8,
    list_len: u64,
    text: *const u8,
    text_len: u64,
    line: *mut u32,
    accepted: *mut u32,
) -> u32 {
    let (list, text) = (raw(list, list_len), raw(text, text_len));
    let request = ListingRequest {
        n,
        m,
        list: slice::from_raw_parts(list.start, list.len).to_vec(),
        text: slice::from_raw_parts(text.start, M::seen(text.len)).to_vec(),
    };
    let answer = listing_answer_by::<R>(&request);
    M::harm(list, text);
    if M::sets_numbers(answer.returned) {
        (*line, *accepted) = (answer.line, answer.accepted);
    }
    answer.returned
}
