//! The table of refusals: each number alone, and the first of any two.

use super::tally::{same, Tally};
use crate::scene::Scene;
use crate::simulator::calls::answer;
use crate::simulator::flash::Flash;
use crate::simulator::request::{
    Call, Numbers, Part, Parts, Request, ALL_PARTS, CALLS, SIZED_CALLS,
};
use crate::simulator::sizes::Sizes;

type Outcome = Result<(), String>;
type Flaw = fn(&mut Request);

/// A flaw, the number it brings, and the calls that give this number.
struct Case {
    name: &'static str,
    number: u32,
    calls: &'static [Call],
    flaw: Flaw,
}

const LIST_CALLS: &[Call] = &[Call::Split, Call::Run, Call::Read, Call::Rebuild];
const SET_CALLS: &[Call] = &[Call::Run, Call::Read, Call::Rebuild];
const MARK_CALLS: &[Call] = &[Call::Mend, Call::Read, Call::Rebuild];

macro_rules! case {
    ($number:expr, $calls:expr, $name:expr, $flaw:expr) => {
        Case {
            name: $name,
            number: $number,
            calls: $calls,
            flaw: $flaw,
        }
    };
}

/// The order in which the numbers are looked for.
const ORDER: [u32; 8] = [1, 2, 3, 11, 4, 5, 6, 7];

fn place_in_order(number: u32) -> Option<usize> {
    ORDER.iter().position(|&other| other == number)
}

/// Written for the scene below: n = 2, m = 2, P = 2, s = 1, place 1, pages 0
/// and 3 pinned.
const CASES: &[Case] = &[
    case!(1, &SIZED_CALLS, "n = 0", |r| r.sizes.n = 0),
    case!(1, &SIZED_CALLS, "n = 65", |r| r.sizes.n = 65),
    case!(1, &SIZED_CALLS, "m = 0", |r| r.sizes.m = 0),
    case!(1, &SIZED_CALLS, "m = 65", |r| r.sizes.m = 65),
    case!(1, &SIZED_CALLS, "P = 0", |r| r.sizes.page_bytes = 0),
    case!(1, &SIZED_CALLS, "P = 4097", |r| r.sizes.page_bytes = 4097),
    case!(1, &SIZED_CALLS, "s = 3", |r| r.sizes.s = 3),
    case!(3, LIST_CALLS, "an entry twice", |r| r.parts.list[2] = 0),
    case!(3, LIST_CALLS, "an entry of n x m", |r| r.parts.list[0] = 4),
    case!(3, LIST_CALLS, "an entry of 65534", |r| r.parts.list[..2]
        .copy_from_slice(&[254, 255])),
    case!(3, LIST_CALLS, "an entry twice beside a drop", |r| r
        .parts
        .list
        .copy_from_slice(&[255, 255, 1, 0, 1, 0, 3, 0])),
    // Completed to 0 2 1 3, but the pin is looked at first.
    case!(
        11,
        &[Call::Split, Call::Run, Call::Read],
        "a pinned page dropped",
        |r| r.parts.list[6..].fill(255)
    ),
    case!(3, LIST_CALLS, "a high byte", |r| r.parts.list[1] = 1),
    case!(11, LIST_CALLS, "a pinned page that moves", |r| r
        .parts
        .pins[1] =
        1),
    case!(11, LIST_CALLS, "a pin of 255", |r| r.parts.pins[2] = 255),
    case!(11, LIST_CALLS, "all pages pinned", |r| r.parts.pins.fill(2)),
    case!(4, SET_CALLS, "a set of m", |r| r.parts.sets[0] = 2),
    case!(4, SET_CALLS, "two pages of a set from a block", |r| r
        .parts
        .sets[0] =
        0),
    case!(4, SET_CALLS, "two pages of a set to a block", |r| r
        .parts
        .sets
        .swap(0, 1)),
    case!(5, &[Call::Run], "a place too low", |r| r.place = 0),
    case!(5, &[Call::Run], "a place too high", |r| r.place = 2),
    case!(5, &[Call::Run], "a place past the end", |r| r.place = 13),
    case!(5, &[Call::Run], "the last number", |r| r.place = u32::MAX),
    case!(5, &[Call::Run], "a mark of another letter", |r| r
        .parts
        .marks[0] =
        1),
    case!(5, &[Call::Run], "a mark lost", |r| r.parts.marks[0] = 255),
    case!(5, &[Call::Run], "a first byte in a page not written", |r| {
        r.parts.store[2] = 0
    }),
    case!(5, &[Call::Run], "a last byte in a page not written", |r| {
        r.parts.store[3] = 254
    }),
    case!(6, MARK_CALLS, "a second unfinished block", |r| r
        .parts
        .marks[5] =
        255),
    case!(5, &[Call::Run], "a mark of 3", |r| r.parts.marks[1] = 3),
    case!(5, &[Call::Run], "a mark of 254", |r| r.parts.marks[1] = 254),
    case!(6, MARK_CALLS, "a mark of 3 in a second block", |r| r
        .parts
        .marks[5] =
        3),
    case!(6, MARK_CALLS, "another letter above", |r| r.parts.marks
        [2..4]
        .fill(2)),
    case!(7, &[Call::Read], "original n x m", |r| r.original = 4),
    case!(7, &[Call::Read], "the last original", |r| r.original =
        u32::MAX),
    case!(7, &[Call::Rebuild], "the slot behind the last", |r| r
        .slot =
        6),
    case!(7, &[Call::Rebuild], "the highest slot", |r| r.slot =
        u32::MAX),
];

pub fn check(tally: &mut Tally) {
    for call in CALLS {
        tally.check(&format!("{call:?} without a flaw"), returns(&base(call), 0));
        for &part in &ALL_PARTS {
            let due = if call.parts().contains(&part) { 2 } else { 0 };
            tally.check(
                &format!("{call:?}, length of {part:?}"),
                wrong_length(call, part, due),
            );
        }
    }
    for case in CASES {
        for call in CALLS {
            let name = format!("{call:?}, {}", case.name);
            tally.check(
                &name,
                returns(&flawed(call, &[case]), number_due(case, call)),
            );
        }
    }
    for call in CALLS {
        tally.check(&format!("{call:?}, two flaws"), two_flaws(call));
    }
}

fn number_due(case: &Case, call: Call) -> u32 {
    match (case.number, call) {
        // No page can be dropped here.
        (0, Call::Rebuild) => 3,
        (number, call) if case.calls.contains(&call) => number,
        // No page can be dropped here, pinned or not.
        (11, Call::Rebuild) => 3,
        // Marks that fit no moment are those of no place.
        (6, Call::Run) => 5,
        _ => 0,
    }
}

/// One page of block 0 is written.
fn base(call: Call) -> Request {
    let sizes = Sizes {
        n: 2,
        m: 2,
        page_bytes: 2,
        s: 1,
    };
    let mut scene = Scene::at_rest(sizes, vec![0, 2, 1, 3], (1..=8).collect());
    let page = [9, 9];
    scene.pins = vec![1, 0, 0, 200];
    scene.flash = Flash::at_rest(sizes, &scene.originals);
    scene.flash.put_page(0, 2, &page);
    Request {
        place: 1,
        budget: 1,
        ..scene.request(call)
    }
}

/// A flaw in a part that the call does not take changes nothing.
fn flawed(call: Call, cases: &[&Case]) -> Request {
    let mut request = base(call);
    request.parts = Parts {
        area: request.parts.area,
        flags: request.parts.flags,
        ..base(Call::Run).parts
    };
    for case in cases {
        (case.flaw)(&mut request);
    }
    for part in ALL_PARTS {
        if !call.parts().contains(&part) {
            request.parts.get_mut(part).clear();
        }
    }
    request
}

/// A refusal returns its number, zeros beside it, and leaves each lent byte.
fn returns(request: &Request, due: u32) -> Outcome {
    let given = answer(request);
    if due == 0 {
        return same("the number", given.numbers.returned, 0);
    }
    let refused = Numbers {
        returned: due,
        ..Numbers::default()
    };
    same("the answer", given.numbers, refused)?;
    same("the lent parts", &given.parts, &request.parts)
}

fn wrong_length(call: Call, part: Part, due: u32) -> Outcome {
    let mut longer = base(call);
    longer.parts.get_mut(part).push(0);
    returns(&longer, due)?;
    let mut shorter = base(call);
    if shorter.parts.get_mut(part).pop().is_some() {
        returns(&shorter, due)?;
    }
    Ok(())
}

/// The first number of the order that applies, among all pairs and with a wrong
/// length of each part.
fn two_flaws(call: Call) -> Outcome {
    let mine: Vec<&Case> = CASES
        .iter()
        .filter(|case| case.calls.contains(&call))
        .collect();
    for first in &mine {
        let place = place_in_order(first.number);
        for second in &mine {
            if place_in_order(second.number) <= place {
                continue;
            }
            let both = flawed(call, &[first, second]);
            returns(&both, first.number)
                .map_err(|why| format!("{} and {}: {why}", first.name, second.name))?;
        }
        for &part in call.parts() {
            let mut short = flawed(call, &[first]);
            short.parts.get_mut(part).pop();
            returns(&short, first.number.min(2))
                .map_err(|why| format!("{} and a length: {why}", first.name))?;
        }
    }
    Ok(())
}
