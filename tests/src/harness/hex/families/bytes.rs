//! Texts looked at byte by byte.

use super::Outcome;
use crate::checks::hex_cases::{READ, REFUSED};
use crate::harness::hex::compare::HexComparer;
use crate::harness::hex::drafts::{read_request, sizes, small_sizes, Draft};
use crate::random::Random;

pub fn worked(comparer: &mut HexComparer, random: &mut Random) -> Outcome {
    let texts = READ.iter().map(|(text, _)| text);
    for text in texts.chain(REFUSED.iter().map(|(text, _)| text)) {
        for shape in [sizes(2, 2, 2), sizes(1, 1, 8), sizes(8, 1, 1)] {
            comparer.compare(&read_request(shape, text.as_bytes().to_vec(), random))?;
        }
    }
    Ok(())
}

/// A record of each type, in both cases, with a carriage return and without.
const SHORT: &[u8] = b":020000040000FA\r\n:0300050001aBfE4E\n:00000001fF\n";

/// Every byte replaced by every other, and every byte put in or taken out
/// everywhere.
pub fn each_byte(comparer: &mut HexComparer, random: &mut Random) -> Outcome {
    let shape = sizes(2, 2, 2);
    for at in 0..SHORT.len() {
        for byte in 0..=255 {
            let mut text = SHORT.to_vec();
            text[at] = byte;
            comparer.compare(&read_request(shape, text, random))?;
        }
        let mut text = SHORT.to_vec();
        text.remove(at);
        comparer.compare(&read_request(shape, text, random))?;
    }
    for at in 0..=SHORT.len() {
        for &byte in b"\n\r:0aF \0g" {
            let mut text = SHORT.to_vec();
            text.insert(at, byte);
            comparer.compare(&read_request(shape, text, random))?;
        }
    }
    Ok(())
}

/// Every beginning and every end of a text, also with a line feed.
pub fn cut_short(comparer: &mut HexComparer, random: &mut Random) -> Outcome {
    for _ in 0..40 {
        let draft = Draft::random(small_sizes(random), random);
        let text = draft.text();
        let step = 1 + text.len() / 60;
        for at in (0..=text.len()).step_by(step) {
            for part in [&text[..at], &text[at..]] {
                comparer.compare(&read_request(draft.sizes, part.to_vec(), random))?;
                let ended = [part, b"\n"].concat();
                comparer.compare(&read_request(draft.sizes, ended, random))?;
            }
        }
    }
    Ok(())
}

/// Any bytes, bytes of texts in any order, and texts with bytes changed.
pub fn nonsense(comparer: &mut HexComparer, random: &mut Random) -> Outcome {
    for _ in 0..1500 {
        let shape = small_sizes(random);
        let length = random.below(200);
        let any = random.bytes(length);
        comparer.compare(&read_request(shape, any, random))?;
        let some = (0..length)
            .map(|_| *random.pick(b":0011FFab\n\r"))
            .collect();
        comparer.compare(&read_request(shape, some, random))?;
        let mut text = Draft::random(shape, random).text();
        for _ in 0..random.between(1, 3) {
            let at = random.below(text.len());
            text[at] = *random.pick(b"0123456789ABCDEFabcdef:\n\r");
        }
        comparer.compare(&read_request(shape, text, random))?;
    }
    Ok(())
}
