//! Valid texts in every form that the rules allow, line by line.

use crate::random::Random;
use crate::simulator::hex::calls::due_length;
use crate::simulator::hex::reader::SPAN;
use crate::simulator::hex::request::{HexCall, HexPart, HexParts, HexRequest};
use crate::simulator::hex::writer::line;
use crate::simulator::rules::Correct;
use crate::simulator::sizes::Sizes;
use std::ops::Range;

/// A text as lines, each with the upper half that holds before it. The last
/// line is the end record.
#[derive(Clone)]
pub struct Draft {
    pub sizes: Sizes,
    pub lines: Vec<(usize, Vec<u8>)>,
    /// The places in the image that its data records give.
    pub pieces: Vec<Range<usize>>,
}

pub fn sizes(n: usize, m: usize, page_bytes: usize) -> Sizes {
    let [n, m, page_bytes] = [n, m, page_bytes].map(|number| number as u32);
    Sizes {
        n,
        m,
        page_bytes,
        s: 0,
    }
}

/// Sizes of an image that goes into one span.
pub fn small_sizes(random: &mut Random) -> Sizes {
    let widest = random.between(1, 6);
    sizes(
        random.between(1, widest),
        random.between(1, widest),
        random.between(1, 24),
    )
}

/// Sizes of an image of some spans, with ends near and far from a span's.
pub fn wide_sizes(random: &mut Random) -> Sizes {
    let choices = [
        (16, 1, 4096),
        (1, 17, 4095),
        (1, 17, 4096),
        (2, 17, 4096),
        (31, 64, 67),
        (64, 64, 40),
    ];
    let &(n, m, page_bytes) = random.pick(&choices);
    sizes(n, m, page_bytes)
}

pub fn upper_line(upper: usize) -> Vec<u8> {
    line(4, 0, (upper as u16).to_be_bytes().to_vec())
}

/// In what order the data records stand.
#[derive(Clone, Copy, Debug)]
pub enum Order {
    Rising,
    Falling,
    /// Spans rise, and their records fall.
    SpansFalling,
    Shuffled,
}

pub const ORDERS: [Order; 4] = [
    Order::Rising,
    Order::Falling,
    Order::SpansFalling,
    Order::Shuffled,
];

/// How many bytes a record has, at most.
const LONGEST: usize = 255;

/// Cuts places into records, which never run over a span; some are left out.
pub fn pieces(
    image_bytes: usize,
    longest: usize,
    kept_of_8: usize,
    random: &mut Random,
) -> Vec<Range<usize>> {
    let mut pieces = vec![];
    let mut start = 0;
    while start < image_bytes {
        let room = (image_bytes - start).min(SPAN - start % SPAN);
        let end = start + random.between(1, longest.min(room).min(LONGEST));
        if random.below(8) < kept_of_8 {
            pieces.push(start..end);
        }
        start = end;
    }
    pieces
}

pub fn ordered(
    mut pieces: Vec<Range<usize>>,
    order: Order,
    random: &mut Random,
) -> Vec<Range<usize>> {
    match order {
        Order::Rising => {}
        Order::Falling => pieces.reverse(),
        Order::SpansFalling => {
            pieces.reverse();
            pieces.sort_by_key(|piece| piece.start / SPAN);
        }
        Order::Shuffled => {
            for last in (1..pieces.len()).rev() {
                pieces.swap(last, random.below(last + 1));
            }
        }
    }
    pieces
}

impl Draft {
    /// Random bytes in these places, with upper halves where they are needed
    /// and now and then where they are not.
    pub fn new(sizes: Sizes, pieces: Vec<Range<usize>>, random: &mut Random) -> Draft {
        let mut draft = Draft {
            sizes,
            lines: vec![],
            pieces: vec![],
        };
        let mut upper = 0;
        for piece in pieces {
            if random.one_in(16) {
                let any = random.below(SPAN);
                let other = *random.pick(&[0, 1, 255, 256, 0xffff, upper, any]);
                draft.lines.push((upper, upper_line(other)));
                upper = other;
            }
            if upper != piece.start / SPAN || random.one_in(16) {
                draft.lines.push((upper, upper_line(piece.start / SPAN)));
                upper = piece.start / SPAN;
            }
            let data = random.bytes(piece.len());
            let address = (piece.start % SPAN) as u16;
            draft.lines.push((upper, line(0, address, data)));
            draft.pieces.push(piece);
        }
        if random.one_in(8) {
            draft.lines.push((upper, upper_line(0xffff)));
            upper = 0xffff;
        }
        draft.lines.push((upper, line(1, 0, vec![])));
        draft
    }

    /// A draft of any form.
    pub fn random(sizes: Sizes, random: &mut Random) -> Draft {
        let longest = *random.pick(&[1, 4, 16, 32, 255]);
        let kept = *random.pick(&[2, 7, 8]);
        let pieces = pieces(sizes.image_bytes(), longest, kept, random);
        let order = *random.pick(&ORDERS);
        let mut draft = Draft::new(sizes, ordered(pieces, order, random), random);
        draft.dress(random);
        draft
    }

    /// Digits of either case, and carriage returns.
    pub fn dress(&mut self, random: &mut Random) {
        let (low_of_4, returns_of_4) = (*random.pick(&[0, 2, 4]), *random.pick(&[0, 2, 4]));
        for (_, line) in &mut self.lines {
            for byte in line.iter_mut() {
                if random.below(4) < low_of_4 {
                    byte.make_ascii_lowercase();
                }
            }
            if random.below(4) < returns_of_4 {
                line.insert(line.len() - 1, b'\r');
            }
        }
    }

    /// Puts lines before the one with this index; the first gets the upper
    /// half given, and what stood before holds again after them.
    pub fn insert(&mut self, index: usize, upper: usize, lines: Vec<Vec<u8>>) {
        let before = self.lines[index].0;
        let mut group = vec![(before, upper_line(upper))];
        group.extend(lines.into_iter().map(|line| (upper, line)));
        group.push((upper, upper_line(before)));
        self.lines.splice(index..index, group);
    }

    pub fn text(&self) -> Vec<u8> {
        let lines = self.lines.iter().map(|(_, line)| &line[..]);
        lines.collect::<Vec<_>>().concat()
    }

    /// The reading of this text into a store that holds anything.
    pub fn request(&self, random: &mut Random) -> HexRequest {
        read_request(self.sizes, self.text(), random)
    }
}

pub fn read_request(sizes: Sizes, text: Vec<u8>, random: &mut Random) -> HexRequest {
    let (before, marks) = (random.byte(), random.byte());
    let length = |part| due_length::<Correct>(&sizes, part);
    HexRequest {
        call: HexCall::Read,
        sizes,
        parts: HexParts {
            text,
            store: vec![before; length(HexPart::Store)],
            marks: vec![marks; length(HexPart::Marks)],
        },
    }
}

/// The writing of a store at rest.
pub fn write_request(sizes: Sizes, image: &[u8], random: &mut Random) -> HexRequest {
    let text = vec![random.byte(); due_length::<Correct>(&sizes, HexPart::Text)];
    HexRequest::write_at_rest(sizes, image, text)
}
