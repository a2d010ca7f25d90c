//! What can be wrong with a record: its form, its place, or the bytes before.

use super::drafts::Draft;
use crate::random::Random;
use crate::simulator::hex::reader::SPAN;
use crate::simulator::hex::record::Fields;
use crate::simulator::hex::writer::line;

/// Spoils the form of a line that is a record: number 8.
pub type Spoil = fn(&[u8], &mut Random) -> Vec<u8>;

/// A change in the fields of a record, with the checksum made right again.
fn refilled(old: &[u8], change: impl FnOnce(&mut Fields)) -> Vec<u8> {
    let digits: Vec<u8> = old.iter().copied().filter(u8::is_ascii_hexdigit).collect();
    let value = |digit: u8| (digit as char).to_digit(16).unwrap_or(0) as u8;
    let bytes: Vec<u8> = digits
        .chunks(2)
        .map(|pair| 16 * value(pair[0]) + value(pair[1]))
        .collect();
    let mut fields = Fields {
        address: u16::from_be_bytes([bytes[1], bytes[2]]),
        kind: bytes[3],
        data: bytes[4..bytes.len() - 1].to_vec(),
    };
    change(&mut fields);
    fields.line()
}

/// Some line with one byte replaced, put in or taken out.
fn at_random(
    old: &[u8],
    random: &mut Random,
    edit: impl FnOnce(&mut Vec<u8>, usize, u8),
) -> Vec<u8> {
    let mut line = old.to_vec();
    let at = random.below(line.len() - 1);
    let byte = *random.pick(b"gG/:@`{ \t\r\0xzZ-+.\x80\xb0\xff;,");
    edit(&mut line, at, byte);
    line
}

/// Each leaves no record of the three types, but for a change that happens to
/// change nothing.
pub const SPOILS: [Spoil; 16] = [
    // a checksum off by one, and by a bit
    |old, _| refilled_sum(old, 1),
    |old, _| refilled_sum(old, 128),
    |old, random| at_random(old, random, |line, at, byte| line[at] = byte),
    |old, random| at_random(old, random, |line, at, byte| line.insert(at, byte)),
    |old, random| {
        at_random(old, random, |line, at, _| {
            line.remove(at);
        })
    },
    // the count is one too small, or too big, with a checksum that fits
    |old, _| counted(old, 255),
    |old, _| counted(old, 1),
    |old, _| old[1..].to_vec(),
    |old, _| [b" ", old].concat(),
    |old, _| [&old[..old.len() - 1], b"00\n"].concat(),
    |old, _| [&old[..old.len() - 1], b"\r\r\n"].concat(),
    // an empty line, and one of a carriage return, before it
    |old, _| [b"\n", old].concat(),
    |old, _| [b"\r\n", old].concat(),
    // no line feed: the next line goes on in this one
    |old, _| old[..old.len() - 1].to_vec(),
    // other types
    |old, random| {
        let kind = *random.pick(&[2, 3, 5, 6, 16, 17, 20, 128, 132, 255]);
        refilled(old, |fields| fields.kind = kind)
    },
    // records that hold what their type does not
    |old, random| {
        let (kind, address, count) = *random.pick(&[
            (0, 0, 0),
            (0, 0xffff, 0),
            (1, 0, 1),
            (1, 1, 0),
            (1, 256, 0),
            (4, 0, 1),
            (4, 0, 3),
            (4, 0, 0),
            (4, 1, 2),
            (4, 256, 2),
        ]);
        let data = vec![0; count];
        refilled(old, |fields| {
            *fields = Fields {
                address,
                kind,
                data,
            }
        })
    },
];

fn refilled_sum(old: &[u8], by: u8) -> Vec<u8> {
    let mut line = refilled(old, |_| {});
    let end = line.len() - 1;
    let sum = std::str::from_utf8(&line[end - 2..end]).expect("digits");
    let sum = u8::from_str_radix(sum, 16)
        .expect("digits")
        .wrapping_add(by);
    line.splice(end - 2..end, format!("{sum:02X}").into_bytes());
    line
}

/// The count changed by so much, and the checksum against it.
fn counted(old: &[u8], by: u8) -> Vec<u8> {
    let mut line = refilled_sum(old, 0u8.wrapping_sub(by));
    let count = std::str::from_utf8(&line[1..3]).expect("digits");
    let count = u8::from_str_radix(count, 16)
        .expect("digits")
        .wrapping_add(by);
    line.splice(1..3, format!("{count:02X}").into_bytes());
    line
}

/// A record in a wrong place: the upper half that it needs, and its line.
#[derive(Clone, Debug)]
pub struct Misplaced {
    pub upper: usize,
    pub line: Vec<u8>,
}

fn misplaced(start: usize, count: usize, random: &mut Random) -> Misplaced {
    Misplaced {
        upper: start / SPAN,
        line: line(0, (start % SPAN) as u16, random.bytes(count)),
    }
}

/// A byte outside the image, or a record over a span: number 9. Some of them
/// also give bytes that are given already.
pub fn outside(draft: &Draft, random: &mut Random) -> Misplaced {
    let image = draft.sizes.image_bytes();
    let count = *random.pick(&[1, 2, 16, 255]);
    let start = match random.below(9) {
        0 => image,
        1 => (image + 1).saturating_sub(count),
        2 => image + random.below(1 << 20),
        3 => image.next_multiple_of(SPAN),
        4 => 256 * SPAN,
        5 => 0xffff * SPAN + 0xffff,
        6 => 0xffff * SPAN + 0x10000 - count,
        7 => random.below(256) * 256 * SPAN + random.below(SPAN),
        // over the end of the first span, inside the image if it is longer
        _ => SPAN + 1 - count,
    };
    misplaced(start, count, random)
}

/// Bytes of which one is given somewhere else in the text: number 10, on the
/// later of the two records.
pub fn doubled(draft: &Draft, random: &mut Random) -> Option<Misplaced> {
    if draft.pieces.is_empty() {
        return None;
    }
    let piece = random.pick(&draft.pieces).clone();
    let image = draft.sizes.image_bytes();
    let (start, end) = match random.below(5) {
        0 => (piece.start, piece.end),
        1 => (piece.start, piece.start + 1),
        2 => (piece.end - 1, piece.end),
        // over its first byte, or its last, as far as the span goes
        3 => (piece.start.saturating_sub(random.below(9)), piece.start + 1),
        _ => (piece.end - 1, image.min(piece.end + random.below(9))),
    };
    let start = start.max(piece.start / SPAN * SPAN);
    let end = end.min((piece.start / SPAN + 1) * SPAN);
    Some(misplaced(start, end - start, random))
}

/// What may come after the end record; each is number 10.
pub fn afterwards(random: &mut Random) -> Vec<u8> {
    let choices: [&[u8]; 12] = [
        b"\n",
        b"\r\n",
        b"\r",
        b":",
        b" ",
        b"\0",
        b"\x1a",
        b":00000001FF\n",
        b":00000001FF",
        b":0100000000FF\n",
        b":0100000000FE\n",
        b":020000040000FA\n",
    ];
    match random.below(4) {
        0 => random.bytes(3),
        _ => random.pick(&choices).to_vec(),
    }
}
