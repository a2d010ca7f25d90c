//! Calls with one flaw and with two, and the same calls without any.

use super::walk::{both_scenes, sizes};
use super::Outcome;
use crate::harness::compare::Comparer;
use crate::random::Random;
use crate::scene::Scene;
use crate::simulator::dropping::DROPPED;
use crate::simulator::flash::Flash;
use crate::simulator::request::{Call, Part, Request, CALLS};

pub type Flaw = Box<dyn Fn(&mut Request)>;

pub fn cases(comparer: &mut Comparer, random: &mut Random) -> Outcome {
    for (n, m, bytes) in [(1, 1, 1), (2, 1, 1), (1, 2, 2), (2, 2, 1), (3, 2, 3)] {
        let shape = sizes(n, m, bytes, random.below(3));
        for scene in both_scenes(shape, random) {
            at_places(comparer, scene, random)?;
        }
    }
    edges_accepted(comparer, random)
}

/// Each call at places of all kinds.
fn at_places(comparer: &mut Comparer, mut scene: Scene, random: &mut Random) -> Outcome {
    let end = scene.sizes.steps() as u32;
    // Odd and even places, so that the next step is a write or an erase.
    let places = [0, 1, 2, end / 2, end - 1, end];
    for place in places {
        scene.flash = Flash::at_rest(scene.sizes, &scene.originals);
        scene.run(0, place);
        for call in CALLS {
            let mut request = scene.request(call);
            request.place = place;
            request.budget = random.below(4) as u32;
            if call == Call::Split {
                // Not the split itself, so that a byte laid there is seen.
                request.parts.sets = random.bytes(request.parts.sets.len());
            }
            request.slot = random.below(scene.sizes.slots()) as u32;
            // The place is nothing to this call but its marks.
            match call == Call::Rebuild && place % 2 == 0 {
                true => comparer.compare(&request).map(|_| ())?,
                false => flawed(comparer, &request)?,
            }
        }
    }
    Ok(())
}

/// The biggest number of each size is taken, alone.
fn edges_accepted(comparer: &mut Comparer, random: &mut Random) -> Outcome {
    for (n, m, bytes, s) in [(64, 1, 1, 0), (1, 64, 1, 1), (1, 1, 4096, 2)] {
        for scene in both_scenes(sizes(n, m, bytes, s), random) {
            for call in CALLS {
                comparer.compare(&scene.request(call))?;
            }
        }
    }
    Ok(())
}

/// The request as it is, with each flaw, and with each pair of flaws.
fn flawed(comparer: &mut Comparer, request: &Request) -> Outcome {
    comparer.compare(request)?;
    let flaws = flaws(request);
    for (index, first) in flaws.iter().enumerate() {
        let mut once = request.clone();
        first(&mut once);
        comparer.compare(&once)?;
        for second in &flaws[index + 1..] {
            let mut twice = once.clone();
            second(&mut twice);
            comparer.compare(&twice)?;
        }
    }
    Ok(())
}

/// Lengths come last, so that a flaw inside a part finds it at its length.
pub fn flaws(request: &Request) -> Vec<Flaw> {
    let call = request.call;
    let mut flaws = size_flaws();
    let takes = |part| call.parts().contains(&part);
    if takes(Part::List) {
        flaws.extend(list_flaws(request));
        flaws.extend(pin_flaws(request));
    }
    if takes(Part::Sets) && call != Call::Split {
        flaws.extend(set_flaws());
    }
    if takes(Part::Marks) {
        flaws.extend(flash_flaws());
    }
    flaws.extend(number_flaws(request));
    if takes(Part::Wear) {
        flaws.extend(wear_flaws());
    }
    flaws.extend(call.parts().iter().flat_map(|&part| length_flaws(part)));
    flaws
}

fn size_flaws() -> Vec<Flaw> {
    let mut flaws: Vec<Flaw> = vec![];
    for wrong in [0, 65, u32::MAX] {
        flaws.push(Box::new(move |request| request.sizes.n = wrong));
        flaws.push(Box::new(move |request| request.sizes.m = wrong));
    }
    for wrong in [0, 4097, u32::MAX] {
        flaws.push(Box::new(move |request| request.sizes.page_bytes = wrong));
    }
    for wrong in [3, u32::MAX] {
        flaws.push(Box::new(move |request| request.sizes.s = wrong));
    }
    flaws
}

fn set_entry(request: &mut Request, index: usize, entry: u16) {
    let low = 2 * index;
    if let Some(bytes) = request.parts.list.get_mut(low..low + 2) {
        bytes.copy_from_slice(&entry.to_le_bytes());
    }
}

fn list_flaws(request: &Request) -> Vec<Flaw> {
    let originals = request.sizes.originals();
    let entries = request.entries();
    let kept = |k: &usize| entries[*k] < originals;
    let named = (0..originals).find(kept).map_or(0, |k| entries[k]) as u16;
    let mut flaws: Vec<Flaw> = vec![
        Box::new(move |request| set_entry(request, originals - 1, originals as u16)),
        // Right in its low byte.
        Box::new(move |request| set_entry(request, 0, named + 256)),
        // Dropped pages are no flaw of the list, but the split is of another.
        Box::new(|request| set_entry(request, 0, 65535)),
        Box::new(|request| request.parts.list.fill(255)),
        Box::new(|request| set_entry(request, 0, 65534)),
        Box::new(|request| set_entry(request, 0, 32767)),
    ];
    if originals > 1 {
        // Met twice, unless no page is kept, or this one alone.
        flaws.push(Box::new(move |request| {
            set_entry(request, originals - 1, named)
        }));
    }
    flaws
}

/// Pins on pages that move or are dropped; all pinned, which is no flaw if all stay;
/// none pinned, which is none.
fn pin_flaws(request: &Request) -> Vec<Flaw> {
    let numbers = request.entries();
    let moving = |k: &usize| numbers[*k] != *k && numbers[*k] != DROPPED;
    let pin =
        |k: usize, byte: u8| -> Flaw { Box::new(move |request| request.parts.pins[k] = byte) };
    let mut flaws: Vec<Flaw> = vec![
        Box::new(|request| request.parts.pins.fill(1)),
        Box::new(|request| request.parts.pins.fill(0)),
    ];
    if let Some(first) = (0..numbers.len()).find(moving) {
        flaws.extend([pin(first, 1), pin(first, 254)]);
    }
    if let Some(last) = (0..numbers.len()).rfind(moving) {
        flaws.push(pin(last, 255));
    }
    if let Some(dropped) = (0..numbers.len()).find(|&k| numbers[k] == DROPPED) {
        flaws.push(pin(dropped, 1));
    }
    flaws
}

fn set_flaws() -> Vec<Flaw> {
    vec![
        Box::new(|request| request.parts.sets[0] = request.sizes.m as u8),
        Box::new(|request| request.parts.sets[0] = 255),
        // With m = 1 these change nothing, and the call must still be accepted.
        Box::new(|request| request.parts.sets.fill(0)),
        Box::new(|request| {
            let last = request.parts.sets.len() - 1;
            request.parts.sets.swap(0, last.min(1));
        }),
        Box::new(|request| request.parts.sets.reverse()),
    ]
}

fn flash_flaws() -> Vec<Flaw> {
    let mark = |slot: fn(usize) -> usize, mark: u8| -> Flaw {
        Box::new(move |request| {
            let last = request.parts.marks.len() - 1;
            request.parts.marks[slot(last)] = mark;
        })
    };
    vec![
        mark(|_| 0, 255),
        mark(|_| 0, 3),
        mark(|_| 0, 1),
        mark(|last| last, 255),
        mark(|last| last, 254),
        mark(|last| last, 2),
        Box::new(|request| request.parts.marks.fill(255)),
        Box::new(|request| request.parts.marks.fill(1)),
        // Bytes under marks that say "not written".
        Box::new(|request| request.parts.store[0] = 254),
        Box::new(|request| request.parts.store.fill(0)),
        Box::new(|request| request.parts.store.fill(255)),
    ]
}

/// Records and limits that refuse a run from place 0 and no other call; the
/// last counters refuse none, but with 64 blocks, nor do wrong pairs.
fn wear_flaws() -> Vec<Flaw> {
    let full = |block: fn(&Request) -> usize| -> Flaw {
        Box::new(move |request| {
            let at = 4 * block(request).min(64);
            request.parts.wear[at..at + 4].fill(255);
        })
    };
    vec![
        full(|_| 0),
        full(|request| request.sizes.data_blocks()),
        full(|_| 64),
        Box::new(|request| request.parts.wear.fill(255)),
        Box::new(|request| request.parts.wear[260..].fill(255)),
        Box::new(|request| request.wear_limit = 0),
    ]
}

fn number_flaws(request: &Request) -> Vec<Flaw> {
    let originals = request.sizes.originals() as u32;
    let end = request.sizes.steps() as u32;
    let place = request.place;
    let mut flaws: Vec<Flaw> = vec![];
    if request.call == Call::Read {
        for original in [originals, originals + 1, originals + 65536, u32::MAX] {
            flaws.push(Box::new(move |request| request.original = original));
        }
    }
    if request.call == Call::Rebuild {
        let slots = request.sizes.slots() as u32;
        for slot in [slots, slots + 1, slots + 65536, u32::MAX] {
            flaws.push(Box::new(move |request| request.slot = slot));
        }
    }
    if request.call == Call::Run {
        for wrong in [
            place.wrapping_sub(1),
            place + 1,
            end + 1,
            end + 2,
            place + 65536,
        ] {
            flaws.push(Box::new(move |request| request.place = wrong));
        }
    }
    flaws
}

fn length_flaws(part: Part) -> Vec<Flaw> {
    vec![
        Box::new(move |request| request.parts.get_mut(part).push(0)),
        Box::new(move |request| {
            request.parts.get_mut(part).pop();
        }),
        Box::new(move |request| {
            request.parts.get_mut(part).pop();
            request.parts.get_mut(part).pop();
        }),
        Box::new(move |request| request.parts.get_mut(part).extend([0, 0])),
        Box::new(move |request| request.parts.get_mut(part).clear()),
    ]
}
