//! Valid texts in every form, and texts with one or two flawed records.

use super::Outcome;
use crate::harness::hex::compare::HexComparer;
use crate::harness::hex::drafts::{small_sizes, upper_line, Draft};
use crate::harness::hex::flaws::{afterwards, doubled, outside, Misplaced, SPOILS};
use crate::random::Random;
use crate::simulator::hex::reader::SPAN;
use crate::simulator::hex::writer::line;

pub fn forms(comparer: &mut HexComparer, random: &mut Random) -> Outcome {
    for _ in 0..4000 {
        let draft = Draft::random(small_sizes(random), random);
        comparer.compare(&draft.request(random))?;
    }
    Ok(())
}

/// Changes a draft at a line, which is not after the end record.
pub type Flaw = fn(&mut Draft, usize, &mut Random);

fn insert(draft: &mut Draft, index: usize, misplaced: Misplaced) {
    draft.insert(index, misplaced.upper, vec![misplaced.line]);
}

/// One flaw of each number, and no flaw; a flaw of 10 shows on the later of
/// two records.
const FLAWS: [Flaw; 4] = [
    |draft, index, random| {
        let spoil = random.pick(&SPOILS);
        draft.lines[index].1 = spoil(&draft.lines[index].1, random);
    },
    |draft, index, random| insert(draft, index, outside(draft, random)),
    |draft, index, random| {
        if let Some(again) = doubled(draft, random) {
            insert(draft, index, again);
        }
    },
    |draft, index, _| draft.insert(index, 0xffff, vec![upper_line(0x8000)]),
];

pub fn one_flaw(comparer: &mut HexComparer, random: &mut Random) -> Outcome {
    for spoil in SPOILS {
        for _ in 0..100 {
            let mut draft = Draft::random(small_sizes(random), random);
            let index = random.below(draft.lines.len());
            draft.lines[index].1 = spoil(&draft.lines[index].1, random);
            comparer.compare(&draft.request(random))?;
        }
    }
    for flaw in FLAWS {
        for _ in 0..600 {
            let mut draft = Draft::random(small_sizes(random), random);
            let index = random.below(draft.lines.len());
            flaw(&mut draft, index, random);
            comparer.compare(&draft.request(random))?;
        }
    }
    without_end(comparer, random)
}

/// No end record, with and without other lines.
fn without_end(comparer: &mut HexComparer, random: &mut Random) -> Outcome {
    for _ in 0..200 {
        let mut draft = Draft::random(small_sizes(random), random);
        draft.lines.pop();
        comparer.compare(&draft.request(random))?;
        if draft.lines.is_empty() {
            continue;
        }
        let index = random.below(draft.lines.len());
        random.pick(&FLAWS)(&mut draft, index, random);
        comparer.compare(&draft.request(random))?;
    }
    Ok(())
}

/// A record that is outside, doubled or both, with a flaw in its form too.
pub fn two_on_one_record(comparer: &mut HexComparer, random: &mut Random) -> Outcome {
    for _ in 0..800 {
        let mut draft = Draft::random(small_sizes(random), random);
        let index = random.below(draft.lines.len());
        let both = doubled_and_outside(&draft, random);
        let misplaced = match random.below(3) {
            0 => Some(outside(&draft, random)),
            1 => doubled(&draft, random),
            _ => both,
        };
        let Some(mut misplaced) = misplaced else {
            continue;
        };
        let mut other = draft.clone();
        insert(&mut other, index, misplaced.clone());
        comparer.compare(&other.request(random))?;
        misplaced.line = random.pick(&SPOILS)(&misplaced.line, random);
        insert(&mut draft, index, misplaced);
        comparer.compare(&draft.request(random))?;
    }
    Ok(())
}

/// From a byte that is given already to one that is outside the image.
fn doubled_and_outside(draft: &Draft, random: &mut Random) -> Option<Misplaced> {
    let image = draft.sizes.image_bytes();
    let near = draft.pieces.iter().find(|piece| piece.end + 255 > image)?;
    let start = near.end - 1;
    let count = image + 1 - start;
    let data = random.bytes(count.min(255));
    Some(Misplaced {
        upper: start / SPAN,
        line: line(0, (start % SPAN) as u16, data),
    })
}

/// Each pair of flaws on two records, in both orders.
pub fn two_on_two_records(comparer: &mut HexComparer, random: &mut Random) -> Outcome {
    for first in 0..FLAWS.len() {
        for second in 0..FLAWS.len() {
            for _ in 0..300 {
                let mut draft = Draft::random(small_sizes(random), random);
                if draft.lines.len() < 2 {
                    continue;
                }
                let late = random.between(1, draft.lines.len() - 1);
                let early = random.below(late);
                // the later one first, so that the earlier lines stay where they are
                FLAWS[second](&mut draft, late, random);
                FLAWS[first](&mut draft, early, random);
                comparer.compare(&draft.request(random))?;
            }
        }
    }
    Ok(())
}

/// Behind a good text, and behind one with a flaw.
pub fn after_the_end(comparer: &mut HexComparer, random: &mut Random) -> Outcome {
    for _ in 0..600 {
        let mut draft = Draft::random(small_sizes(random), random);
        let end = draft.lines.len() - 1;
        let upper = draft.lines[end].0;
        draft.lines.push((upper, afterwards(random)));
        comparer.compare(&draft.request(random))?;
        draft.lines.push((upper, afterwards(random)));
        comparer.compare(&draft.request(random))?;
        let index = random.below(end + 1);
        random.pick(&FLAWS)(&mut draft, index, random);
        comparer.compare(&draft.request(random))?;
    }
    // an end record among the others, and lines moved behind it
    for _ in 0..600 {
        let mut draft = Draft::random(small_sizes(random), random);
        let end = draft.lines.pop().expect("an end record");
        let index = random.between(0, draft.lines.len());
        draft.lines.insert(index, end);
        comparer.compare(&draft.request(random))?;
    }
    Ok(())
}
