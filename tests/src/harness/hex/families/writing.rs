//! Texts of stores, read again; and stores that are not at rest.

use super::Outcome;
use crate::harness::hex::compare::HexComparer;
use crate::harness::hex::drafts::{read_request, small_sizes, wide_sizes, write_request};
use crate::random::Random;
use crate::simulator::sizes::Sizes;

pub fn cases(comparer: &mut HexComparer, random: &mut Random) -> Outcome {
    for _ in 0..500 {
        there_and_back(comparer, small_sizes(random), random)?;
    }
    for _ in 0..12 {
        there_and_back(comparer, wide_sizes(random), random)?;
    }
    Ok(())
}

/// Random bytes, and bytes that are all 255 or all 0.
fn there_and_back(comparer: &mut HexComparer, shape: Sizes, random: &mut Random) -> Outcome {
    let mut image = random.bytes(shape.image_bytes());
    match random.below(6) {
        0 => image.fill(255),
        1 => image.fill(0),
        _ => {}
    }
    let written = comparer.compare(&write_request(shape, &image, random))?;
    comparer.compare(&read_request(shape, written.parts.text, random))?;
    Ok(())
}

/// One mark or one byte of the spare is wrong; a byte elsewhere is not.
pub fn refused(comparer: &mut HexComparer, random: &mut Random) -> Outcome {
    for _ in 0..1500 {
        let shape = small_sizes(random);
        let image = random.bytes(shape.image_bytes());
        let mut request = write_request(shape, &image, random);
        for _ in 0..random.between(1, 2) {
            let slot = random.below(shape.slots());
            let byte = random.below(shape.spare_bytes());
            let parts = &mut request.parts;
            match random.below(5) {
                0 => parts.marks[slot] = *random.pick(&[0, 1, 2, 3, 254, 255]),
                1 => parts.marks[slot % shape.pages()] = *random.pick(&[0, 1, 2, 254]),
                2 => parts.store[byte] = *random.pick(&[0, 127, 254]),
                3 => parts.marks[shape.pages()..].fill(random.below(3) as u8),
                _ => parts.store[slot * shape.bytes()] = 255,
            }
        }
        comparer.compare(&request)?;
    }
    Ok(())
}
