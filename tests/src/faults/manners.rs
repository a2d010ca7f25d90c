//! Faults at the interface itself.

use super::exports::{calls, Manners, Raw};
use super::Fault;
use crate::simulator::request::{Call, Part};
use crate::simulator::rules::Correct;

pub fn faults() -> Vec<Fault> {
    vec![
        rude::<PastStore>("a byte behind the store is written"),
        rude::<BeforeMarks>("a byte before the marks is written"),
        rude::<PastWork>("a byte behind the work page is written"),
        rude::<ReadTouchesStore>("read changes the store"),
        rude::<SplitTouchesList>("split changes the list"),
        rude::<RunTouchesPins>("run changes the pins"),
        rude::<BeforePins>("a byte before the pins is written"),
        rude::<Past<AREA>>("a byte behind the area is written"),
        rude::<Past<FLAGS>>("a byte behind the flags is written"),
        rude::<RebuildTouchesStore>("rebuild changes the store"),
        rude::<UnsetAtRefusal>("a refusal leaves the returned numbers unset"),
    ]
}

fn rude<M: Manners>(name: &'static str) -> Fault {
    let calls = calls::<Correct, M>();
    Fault { name, calls }
}

struct PastStore;

impl Manners for PastStore {
    unsafe fn harm(_call: Call, part: Part, raw: Raw) {
        if part == Part::Store {
            *raw.start.add(raw.len) = 255;
        }
    }
}

struct BeforeMarks;

impl Manners for BeforeMarks {
    unsafe fn harm(_call: Call, part: Part, raw: Raw) {
        if part == Part::Marks {
            *raw.start.sub(1) = 255;
        }
    }
}

struct PastWork;

impl Manners for PastWork {
    unsafe fn harm(_call: Call, part: Part, raw: Raw) {
        if part == Part::Work {
            *raw.start.add(raw.len) = 0;
        }
    }
}

struct ReadTouchesStore;

impl Manners for ReadTouchesStore {
    unsafe fn harm(call: Call, part: Part, raw: Raw) {
        if call == Call::Read && part == Part::Store && raw.len > 0 {
            *raw.start ^= 1;
        }
    }
}

struct SplitTouchesList;

impl Manners for SplitTouchesList {
    unsafe fn harm(call: Call, part: Part, raw: Raw) {
        if call == Call::Split && part == Part::List && raw.len > 0 {
            *raw.start ^= 1;
        }
    }
}

struct RunTouchesPins;

impl Manners for RunTouchesPins {
    unsafe fn harm(call: Call, part: Part, raw: Raw) {
        if call == Call::Run && part == Part::Pins && raw.len > 0 {
            *raw.start ^= 1;
        }
    }
}

const AREA: usize = Part::Area as usize;
const FLAGS: usize = Part::Flags as usize;

struct Past<const PART: usize>;

impl<const PART: usize> Manners for Past<PART> {
    unsafe fn harm(_call: Call, part: Part, raw: Raw) {
        if part as usize == PART {
            *raw.start.add(raw.len) = 1;
        }
    }
}

struct RebuildTouchesStore;

impl Manners for RebuildTouchesStore {
    unsafe fn harm(call: Call, part: Part, raw: Raw) {
        if call == Call::Rebuild && part == Part::Store && raw.len > 0 {
            *raw.start ^= 1;
        }
    }
}

struct BeforePins;

impl Manners for BeforePins {
    unsafe fn harm(_call: Call, part: Part, raw: Raw) {
        if part == Part::Pins {
            *raw.start.sub(1) = 1;
        }
    }
}

struct UnsetAtRefusal;

impl Manners for UnsetAtRefusal {
    fn sets_numbers(returned: u32) -> bool {
        returned == 0
    }
}
