//! The simulator behind the C interface, with whatever rules a mover has.

use crate::harness::interface::Calls;
use crate::simulator::calls::answer_by;
use crate::simulator::request::{Answer, Call, Part, Parts, Request, ALL_PARTS};
use crate::simulator::rules::Rules;
use crate::simulator::sizes::Sizes;
use std::slice;

/// A lent part as it comes through the interface.
#[derive(Clone, Copy)]
pub struct Raw {
    pub start: *mut u8,
    pub len: usize,
}

/// What a mover does beside the rules, at the interface itself.
pub trait Manners {
    /// Are the returned numbers set when the call returns this number?
    fn sets_numbers(_returned: u32) -> bool {
        true
    }

    /// Harm done to lent memory.
    ///
    /// # Safety
    /// The parts must lie inside live buffers, with room on both sides.
    unsafe fn harm(_call: Call, _part: Part, _raw: Raw) {}
}

pub struct Clean;

impl Manners for Clean {}

pub fn calls<R: Rules, M: Manners>() -> Calls {
    Calls {
        split: split::<R, M>,
        run: run::<R, M>,
        mend: mend::<R, M>,
        read: read::<R, M>,
        refresh: refresh::<R, M>,
        rebuild: rebuild::<R, M>,
    }
}

fn raw(start: *const u8, len: u64) -> Raw {
    Raw {
        start: start.cast_mut(),
        len: len as usize,
    }
}

const NOT_LENT: Raw = Raw {
    start: std::ptr::null_mut(),
    len: 0,
};

/// The parts in the order of `ALL_PARTS`.
type Loan = [Raw; 9];

fn lent<const COUNT: usize>(parts: [(Part, Raw); COUNT]) -> Loan {
    let mut loan = [NOT_LENT; 9];
    for (part, raw) in parts {
        loan[part as usize] = raw;
    }
    loan
}

/// The request with place, budget, wear limit, original and slot 0.
unsafe fn request_of(call: Call, sizes: [u32; 4], loan: &Loan) -> Request {
    let mut parts = Parts::default();
    for (part, lent) in ALL_PARTS.into_iter().zip(loan) {
        if !lent.start.is_null() {
            *parts.get_mut(part) = slice::from_raw_parts(lent.start, lent.len).to_vec();
        }
    }
    let [n, m, page_bytes, s] = sizes;
    Request {
        call,
        sizes: Sizes {
            n,
            m,
            page_bytes,
            s,
        },
        parts,
        place: 0,
        budget: 0,
        wear_limit: 0,
        original: 0,
        slot: 0,
    }
}

/// Answers the request and lays back the parts that the call may change.
unsafe fn serve<R: Rules, M: Manners>(request: Request, loan: &Loan, changed: &[Part]) -> Answer {
    let answer = answer_by::<R>(&request);
    for (part, &lent) in ALL_PARTS.into_iter().zip(loan) {
        if changed.contains(&part) {
            let bytes = answer.parts.get(part);
            lent.start.copy_from(bytes.as_ptr(), lent.len);
        }
        if !lent.start.is_null() {
            M::harm(request.call, part, lent);
        }
    }
    answer
}

unsafe fn set<M: Manners>(returned: u32, outs: &[(*mut u32, u32)]) {
    if M::sets_numbers(returned) {
        for &(out, number) in outs {
            *out = number;
        }
    }
}

unsafe extern "C" fn split<R: Rules, M: Manners>(
    n: u32,
    m: u32,
    page_bytes: u32,
    s: u32,
    list: *const u8,
    list_len: u64,
    pins: *const u8,
    pins_len: u64,
    sets: *mut u8,
    sets_len: u64,
) -> u32 {
    let loan = lent([
        (Part::List, raw(list, list_len)),
        (Part::Pins, raw(pins, pins_len)),
        (Part::Sets, raw(sets, sets_len)),
    ]);
    let request = request_of(Call::Split, [n, m, page_bytes, s], &loan);
    serve::<R, M>(request, &loan, &[Part::Sets])
        .numbers
        .returned
}

unsafe extern "C" fn run<R: Rules, M: Manners>(
    n: u32,
    m: u32,
    page_bytes: u32,
    s: u32,
    list: *const u8,
    list_len: u64,
    pins: *const u8,
    pins_len: u64,
    sets: *const u8,
    sets_len: u64,
    store: *mut u8,
    store_len: u64,
    marks: *mut u8,
    marks_len: u64,
    work: *mut u8,
    work_len: u64,
    wear: *mut u8,
    wear_len: u64,
    place: u32,
    budget: u32,
    wear_limit: u32,
    place_reached: *mut u32,
    steps: *mut u32,
    writes: *mut u32,
    erases: *mut u32,
    finished: *mut u32,
    written_bytes: *mut u32,
    pages_read: *mut u32,
) -> u32 {
    let loan = lent([
        (Part::List, raw(list, list_len)),
        (Part::Pins, raw(pins, pins_len)),
        (Part::Sets, raw(sets, sets_len)),
        (Part::Store, raw(store, store_len)),
        (Part::Marks, raw(marks, marks_len)),
        (Part::Work, raw(work, work_len)),
        (Part::Wear, raw(wear, wear_len)),
    ]);
    let mut request = request_of(Call::Run, [n, m, page_bytes, s], &loan);
    (request.place, request.budget) = (place, budget);
    request.wear_limit = wear_limit;
    let changed = [Part::Store, Part::Marks, Part::Work, Part::Wear];
    let numbers = serve::<R, M>(request, &loan, &changed).numbers;
    let outs = [
        (place_reached, numbers.place),
        (steps, numbers.steps),
        (writes, numbers.writes),
        (erases, numbers.erases),
        (finished, numbers.finished),
        (written_bytes, numbers.written_bytes),
        (pages_read, numbers.pages_read),
    ];
    set::<M>(numbers.returned, &outs);
    numbers.returned
}

unsafe extern "C" fn mend<R: Rules, M: Manners>(
    n: u32,
    m: u32,
    page_bytes: u32,
    s: u32,
    store: *mut u8,
    store_len: u64,
    marks: *mut u8,
    marks_len: u64,
    wear: *mut u8,
    wear_len: u64,
    place: *mut u32,
    erases: *mut u32,
) -> u32 {
    let loan = lent([
        (Part::Store, raw(store, store_len)),
        (Part::Marks, raw(marks, marks_len)),
        (Part::Wear, raw(wear, wear_len)),
    ]);
    let request = request_of(Call::Mend, [n, m, page_bytes, s], &loan);
    let changed = [Part::Store, Part::Marks, Part::Wear];
    let numbers = serve::<R, M>(request, &loan, &changed).numbers;
    set::<M>(
        numbers.returned,
        &[(place, numbers.place), (erases, numbers.erases)],
    );
    numbers.returned
}

unsafe extern "C" fn read<R: Rules, M: Manners>(
    n: u32,
    m: u32,
    page_bytes: u32,
    s: u32,
    list: *const u8,
    list_len: u64,
    pins: *const u8,
    pins_len: u64,
    sets: *const u8,
    sets_len: u64,
    store: *const u8,
    store_len: u64,
    marks: *const u8,
    marks_len: u64,
    work: *mut u8,
    work_len: u64,
    original: u32,
    count: *mut u32,
    written_bytes: *mut u32,
) -> u32 {
    let loan = lent([
        (Part::List, raw(list, list_len)),
        (Part::Pins, raw(pins, pins_len)),
        (Part::Sets, raw(sets, sets_len)),
        (Part::Store, raw(store, store_len)),
        (Part::Marks, raw(marks, marks_len)),
        (Part::Work, raw(work, work_len)),
    ]);
    let mut request = request_of(Call::Read, [n, m, page_bytes, s], &loan);
    request.original = original;
    let numbers = serve::<R, M>(request, &loan, &[Part::Work]).numbers;
    let outs = [
        (count, numbers.count),
        (written_bytes, numbers.written_bytes),
    ];
    set::<M>(numbers.returned, &outs);
    numbers.returned
}

unsafe extern "C" fn refresh<R: Rules, M: Manners>(wear: *mut u8, wear_len: u64) -> u32 {
    let loan = lent([(Part::Wear, raw(wear, wear_len))]);
    let request = request_of(Call::Refresh, [0; 4], &loan);
    serve::<R, M>(request, &loan, &[Part::Wear])
        .numbers
        .returned
}

unsafe extern "C" fn rebuild<R: Rules, M: Manners>(
    n: u32,
    m: u32,
    page_bytes: u32,
    s: u32,
    list: *const u8,
    list_len: u64,
    pins: *const u8,
    pins_len: u64,
    sets: *const u8,
    sets_len: u64,
    store: *const u8,
    store_len: u64,
    marks: *const u8,
    marks_len: u64,
    area: *mut u8,
    area_len: u64,
    flags: *mut u8,
    flags_len: u64,
    slot: u32,
) -> u32 {
    let loan = lent([
        (Part::List, raw(list, list_len)),
        (Part::Pins, raw(pins, pins_len)),
        (Part::Sets, raw(sets, sets_len)),
        (Part::Store, raw(store, store_len)),
        (Part::Marks, raw(marks, marks_len)),
        (Part::Area, raw(area, area_len)),
        (Part::Flags, raw(flags, flags_len)),
    ]);
    let mut request = request_of(Call::Rebuild, [n, m, page_bytes, s], &loan);
    request.slot = slot;
    serve::<R, M>(request, &loan, &[Part::Area, Part::Flags])
        .numbers
        .returned
}
