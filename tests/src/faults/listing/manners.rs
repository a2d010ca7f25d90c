//! Faults at the interface itself.

use super::exports::{listing_call, ListingManners};
use super::ListingFault;
use crate::faults::exports::Raw;
use crate::simulator::rules::Correct;

pub fn faults() -> Vec<ListingFault> {
    vec![
        rude::<ReadsOn>("listings: a byte behind the text is read"),
        rude::<StopsShort>("listings: the last byte of the text is not read"),
        rude::<TouchesText>("listings: the text is changed"),
        rude::<PastList>("listings: a byte behind the list is written"),
        rude::<UnsetAtRefusal>("listings: a refusal leaves the numbers unset"),
    ]
}

fn rude<M: ListingManners>(name: &'static str) -> ListingFault {
    let call = listing_call::<Correct, M>();
    ListingFault { name, call }
}

struct ReadsOn;

impl ListingManners for ReadsOn {
    fn seen(len: usize) -> usize {
        len + 1
    }
}

struct StopsShort;

impl ListingManners for StopsShort {
    fn seen(len: usize) -> usize {
        len.saturating_sub(1)
    }
}

struct TouchesText;

impl ListingManners for TouchesText {
    unsafe fn harm(_list: Raw, text: Raw) {
        if text.len > 0 {
            *text.start ^= 32;
        }
    }
}

struct PastList;

impl ListingManners for PastList {
    unsafe fn harm(list: Raw, _text: Raw) {
        *list.start.add(list.len) = 0;
    }
}

struct UnsetAtRefusal;

impl ListingManners for UnsetAtRefusal {
    fn sets_numbers(returned: u32) -> bool {
        matches!(returned, 0 | 13..=15)
    }
}
