//! Sizes out of their ranges and parts of wrong lengths, one and two at once,
//! also where the text or the store is wrong too.

use super::Outcome;
use crate::harness::hex::compare::HexComparer;
use crate::harness::hex::drafts::{read_request, sizes, write_request};
use crate::random::Random;
use crate::simulator::hex::request::{HexPart, HexRequest, HEX_PARTS};
use crate::simulator::sizes::Sizes;

type Flaw = Box<dyn Fn(&mut HexRequest)>;

const TEXT: &[u8] = b":0100000000FF\n:00000001FF\n";

pub fn cases(comparer: &mut HexComparer, random: &mut Random) -> Outcome {
    for (n, m, page_bytes) in [(1, 1, 1), (2, 1, 3), (1, 3, 2), (2, 2, 5)] {
        let shape = sizes(n, m, page_bytes);
        let image = random.bytes(shape.image_bytes());
        for text in [TEXT, b"x\n", b":0100ffff00ff\n", b""] {
            flawed(comparer, &read_request(shape, text.to_vec(), random))?;
        }
        let good = write_request(shape, &image, random);
        flawed(comparer, &good)?;
        let mut soiled = good.clone();
        soiled.parts.store[0] = 0;
        flawed(comparer, &soiled)?;
        let mut moved = good;
        moved.parts.marks.fill(2);
        flawed(comparer, &moved)?;
    }
    edges(comparer, random)
}

/// The biggest number of each size is taken, alone.
fn edges(comparer: &mut HexComparer, random: &mut Random) -> Outcome {
    for (n, m, page_bytes) in [(64, 1, 1), (1, 64, 1), (1, 1, 4096), (64, 64, 1)] {
        let shape = sizes(n, m, page_bytes);
        let image = random.bytes(shape.image_bytes());
        let written = comparer.compare(&write_request(shape, &image, random))?;
        comparer.compare(&read_request(shape, written.parts.text, random))?;
    }
    Ok(())
}

fn flawed(comparer: &mut HexComparer, request: &HexRequest) -> Outcome {
    comparer.compare(request)?;
    let flaws = flaws(request.sizes);
    for (index, first) in flaws.iter().enumerate() {
        let mut once = request.clone();
        first(&mut once);
        comparer.compare(&once)?;
        for second in &flaws[index + 1..] {
            let mut twice = once.clone();
            second(&mut twice);
            comparer.compare(&twice)?;
        }
    }
    Ok(())
}

fn flaws(good: Sizes) -> Vec<Flaw> {
    let mut flaws: Vec<Flaw> = vec![];
    for wrong in [0, 65, u32::MAX] {
        flaws.push(Box::new(move |request| request.sizes.n = wrong));
        flaws.push(Box::new(move |request| request.sizes.m = wrong));
    }
    for wrong in [0, 4097, u32::MAX] {
        flaws.push(Box::new(move |request| request.sizes.page_bytes = wrong));
    }
    // other sizes of the same product
    flaws.push(Box::new(move |request| {
        request.sizes.n = good.m;
        request.sizes.m = good.n;
    }));
    flaws.extend(HEX_PARTS.into_iter().flat_map(length_flaws));
    flaws
}

fn length_flaws(part: HexPart) -> Vec<Flaw> {
    vec![
        Box::new(move |request| request.parts.get_mut(part).push(0)),
        Box::new(move |request| {
            request.parts.get_mut(part).pop();
        }),
        Box::new(move |request| request.parts.get_mut(part).extend([0, 0])),
        Box::new(move |request| request.parts.get_mut(part).clear()),
    ]
}
