//! Where records lie: beside, upon and inside one another, in one span and in
//! some.

use super::Outcome;
use crate::harness::hex::compare::HexComparer;
use crate::harness::hex::drafts::{ordered, pieces, sizes, wide_sizes, Draft, ORDERS};
use crate::harness::hex::flaws::{doubled, outside, SPOILS};
use crate::random::Random;
use crate::simulator::hex::reader::SPAN;

/// Each two records of an image of six bytes, and a third between them.
pub fn two_records(comparer: &mut HexComparer, random: &mut Random) -> Outcome {
    let shape = sizes(3, 1, 2);
    let all: Vec<_> = (0..8)
        .flat_map(|start| (start + 1..=8).map(move |end| start..end))
        .collect();
    for first in &all {
        for second in &all {
            let two = vec![first.clone(), second.clone()];
            comparer.compare(&Draft::new(shape, two, random).request(random))?;
            let between = random.pick(&all).clone();
            let three = vec![first.clone(), between, second.clone()];
            comparer.compare(&Draft::new(shape, three, random).request(random))?;
        }
    }
    Ok(())
}

/// Images that end near the end of a span and behind it: in every order, then
/// with one flaw and with two.
pub fn wide(comparer: &mut HexComparer, random: &mut Random) -> Outcome {
    for round in 0..60 {
        let shape = wide_sizes(random);
        let longest = *random.pick(&[16, 64, 255]);
        let kept = *random.pick(&[1, 7, 8]);
        let order = ORDERS[round % ORDERS.len()];
        let places = pieces(shape.image_bytes(), longest, kept, random);
        let mut draft = Draft::new(shape, ordered(places, order, random), random);
        if random.one_in(2) {
            draft.dress(random);
        }
        comparer.compare(&draft.request(random))?;
        let index = random.below(draft.lines.len());
        if let Some(again) = doubled(&draft, random) {
            draft.insert(index, again.upper, vec![again.line]);
            comparer.compare(&draft.request(random))?;
        }
        let index = random.below(draft.lines.len());
        match random.below(3) {
            0 => {
                let far = outside(&draft, random);
                draft.insert(index, far.upper, vec![far.line]);
            }
            1 => draft.lines[index].1 = random.pick(&SPOILS)(&draft.lines[index].1, random),
            _ => drop(draft.lines.pop()),
        }
        comparer.compare(&draft.request(random))?;
    }
    Ok(())
}

/// A record at and around the end of a span, inside an image that is longer,
/// with the places beside it given before or not at all.
pub fn over_a_span(comparer: &mut HexComparer, random: &mut Random) -> Outcome {
    let shape = sizes(1, 17, 4096);
    for count in [1, 2, 3, 16, 17, 128, 254, 255] {
        for start in SPAN - count - 1..=SPAN + 1 {
            let places = start..start + count;
            let alone = vec![places.clone()];
            comparer.compare(&Draft::new(shape, alone, random).request(random))?;
            if random.one_in(4) {
                let beside = vec![places.end..places.end + 1, start - 1..start, places];
                comparer.compare(&Draft::new(shape, beside, random).request(random))?;
            }
        }
    }
    Ok(())
}

/// Few records in an image of some spans, at the ends of spans above all, some
/// of them twice, with others between.
pub fn far_apart(comparer: &mut HexComparer, random: &mut Random) -> Outcome {
    for _ in 0..400 {
        let shape = wide_sizes(random);
        let image = shape.image_bytes();
        let mut places = vec![];
        for _ in 0..random.between(1, 12) {
            let near = random.below(image / SPAN + 1) * SPAN;
            let start = match random.below(4) {
                0 => near,
                1 => near + random.below(20),
                2 => (near + SPAN).saturating_sub(random.between(1, 20)),
                _ => random.below(image),
            };
            let room = SPAN - start % SPAN;
            let longest = *random.pick(&[1, 8, 32, 255]);
            let count = random.between(1, longest).min(room);
            places.push(start..start + count);
        }
        comparer.compare(&Draft::new(shape, places, random).request(random))?;
    }
    Ok(())
}
