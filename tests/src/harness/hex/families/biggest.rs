//! The biggest image: few texts, since each has 46 megabytes.

use super::Outcome;
use crate::harness::hex::compare::HexComparer;
use crate::harness::hex::drafts::{ordered, read_request, sizes, write_request, Draft, Order};
use crate::harness::hex::flaws::{doubled, outside};
use crate::random::Random;
use crate::simulator::hex::reader::SPAN;
use std::ops::Range;

pub fn cases(comparer: &mut HexComparer, random: &mut Random) -> Outcome {
    let shape = sizes(64, 64, 4096);
    scattered(comparer, random)?;
    let image = random.bytes(shape.image_bytes());
    let written = comparer.compare(&write_request(shape, &image, random))?;
    comparer.compare(&read_request(shape, written.parts.text, random))?;
    Ok(())
}

/// Some records of each span, and more of the last, so that every upper half
/// counts; then one of them again, and one behind the image.
fn scattered(comparer: &mut HexComparer, random: &mut Random) -> Outcome {
    let shape = sizes(64, 64, 4096);
    for order in [Order::Rising, Order::SpansFalling, Order::Shuffled] {
        let spans = shape.image_bytes() / SPAN;
        let places =
            (0..spans).flat_map(|span| some_of(span, if span + 1 == spans { 9 } else { 3 }));
        let places = ordered(places.collect(), order, random);
        let mut draft = Draft::new(shape, places, random);
        comparer.compare(&draft.request(random))?;
        let end = draft.lines.len() - 1;
        let far = outside(&draft, random);
        let mut with_far = draft.clone();
        with_far.insert(end, far.upper, vec![far.line]);
        comparer.compare(&with_far.request(random))?;
        if let Some(again) = doubled(&draft, random) {
            draft.insert(end, again.upper, vec![again.line]);
            comparer.compare(&draft.request(random))?;
        }
    }
    ends(comparer, random)
}

/// A byte given twice in the first span or the last, with others between.
fn ends(comparer: &mut HexComparer, random: &mut Random) -> Outcome {
    let shape = sizes(64, 64, 4096);
    let image = shape.image_bytes();
    for twice in [0..16, image - 16..image] {
        let others = (0..image).step_by(SPAN).map(|start| start + 32..start + 48);
        let places = [vec![twice.clone()], others.collect(), vec![twice]];
        let draft = Draft::new(shape, places.concat(), random);
        comparer.compare(&draft.request(random))?;
    }
    Ok(())
}

/// Records at both ends of a span and between.
fn some_of(span: usize, count: usize) -> impl Iterator<Item = Range<usize>> {
    (0..count).map(move |index| {
        let start = span * SPAN + index * (SPAN - 16) / (count - 1);
        start..start + 16
    })
}
