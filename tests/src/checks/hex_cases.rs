//! HEX texts with the answers that the rules ask for.

use super::tally::{ensure, same, Tally};
use crate::simulator::hex::calls::hex_answer;
use crate::simulator::hex::request::{HexCall, HexParts, HexRequest};
use crate::simulator::hex::writer::{text_length, text_of};
use crate::simulator::rules::Correct;
use crate::simulator::sizes::Sizes;

type Outcome = Result<(), String>;

/// Texts for an image of 8 bytes: n = 2, m = 2, P = 2.
pub const READ: &[(&str, [u8; 8])] = &[
    (":00000001FF\n", [255; 8]),
    (
        ":080000000102030405060708D4\n:00000001FF\n",
        [1, 2, 3, 4, 5, 6, 7, 8],
    ),
    (
        ":020006000a0BE3\r\n:0100000000FF\n:00000001ff\r\n",
        [0, 255, 255, 255, 255, 255, 10, 11],
    ),
    // Upper halves may come anywhere, with any value, as long as no data byte is outside.
    (
        ":02000004FFFFFC\n:020000040000FA\n:0100070007F1\n:020000040800F2\n:00000001FF\n",
        [255, 255, 255, 255, 255, 255, 255, 7],
    ),
];

/// Refused texts, with the number of the first faulty record.
pub const REFUSED: &[(&str, u32)] = &[
    ("", 10),
    (":0100000000FF\n", 10),
    ("\n", 8),
    ("\r\n:00000001FF\n", 8),
    (":00000001FF", 8),
    (":00000001FF\r", 8),
    (":00000001FF\r\r\n", 8),
    (":00000001FE\n", 8),
    (":00000001FF \n", 8),
    (":00000001FFxx\n", 8),
    (" :00000001FF\n", 8),
    ("00000001FF\n", 8),
    ("::00000001FF\n", 8),
    (":0000000FF\n", 8),
    (":0100000000FG\n:00000001FF\n", 8),
    // a data record of no byte, other types, and wrong holdings of 01 and 04
    (":0000000000\n:00000001FF\n", 8),
    (":020000020000FC\n:00000001FF\n", 8),
    (":0400000300000000F9\n:00000001FF\n", 8),
    (":0400000500000000F7\n:00000001FF\n", 8),
    (":0100000100FE\n", 8),
    (":00000101FE\n", 8),
    (":0100000400FB\n:00000001FF\n", 8),
    (":03000004000000F9\n:00000001FF\n", 8),
    (":020001040000F9\n:00000001FF\n", 8),
    // a byte outside, above the image and above the span
    (":0100080000F7\n:00000001FF\n", 9),
    (":020007000000F7\n:00000001FF\n", 9),
    (":020000040001F9\n:0100000000FF\n:00000001FF\n", 9),
    (":02000004FFFFFC\n:01FFFF000001\n:00000001FF\n", 9),
    (":02000004FFFFFC\n:02FFFF00000000\n:00000001FF\n", 9),
    // a byte twice, and anything after the end
    (":0100000000FF\n:0100000000FF\n:00000001FF\n", 10),
    (":0100000000FF\n:0100010000FE\n:020000000000FE\n", 10),
    (":00000001FF\n:00000001FF\n", 10),
    (":00000001FF\n\n", 10),
    (":00000001FF\nx", 10),
    (":00000001FF\n:0100000000FE\n", 10),
    // the first faulty record decides, and on it the lowest number
    (":0100000000FF\n:0100000000FF\n:0100080000F7\nx\n", 10),
    (":0100080000F7\n:0100000000FF\n:0100000000FF\nx\n", 9),
    ("x\n:0100080000F7\n", 8),
    (":0100080000F8\n", 8),
    (":0100000000FF\n:0100000000FE\n", 8),
    (":0100070000F8\n:020007000000F7\n", 9),
];

fn sizes(n: u32, m: u32, page_bytes: u32) -> Sizes {
    Sizes {
        n,
        m,
        page_bytes,
        s: 0,
    }
}

fn read_request(text: &[u8]) -> HexRequest {
    HexRequest {
        call: HexCall::Read,
        sizes: sizes(2, 2, 2),
        parts: HexParts {
            text: text.to_vec(),
            store: vec![0x5a; 12],
            marks: vec![0x5a; 6],
        },
    }
}

fn write_request(sizes: Sizes, image: &[u8]) -> HexRequest {
    let text = vec![0x5a; text_length::<Correct>(image.len())];
    HexRequest::write_at_rest(sizes, image, text)
}

pub fn check(tally: &mut Tally) {
    for (text, image) in READ {
        tally.check(&format!("HEX {text:?}"), reads(text, image));
    }
    for &(text, number) in REFUSED {
        let request = read_request(text.as_bytes());
        tally.check(&format!("HEX {text:?}"), refused(&request, number));
    }
    tally.check("the HEX text of 20 bytes", twenty_bytes());
    tally.check("the HEX text's spans", spans());
    tally.check("the HEX text's length", lengths());
    tally.check("HEX texts come back", come_back());
    tally.check("stores that have no HEX text", not_at_rest());
}

fn reads(text: &str, image: &[u8]) -> Outcome {
    let given = hex_answer(&read_request(text.as_bytes()));
    same("the number", given.returned, 0)?;
    let store = [&[255; 4], image].concat();
    same("the store", given.parts.store, store)?;
    same("the marks", given.parts.marks, vec![255, 255, 0, 0, 0, 0])
}

fn refused(request: &HexRequest, number: u32) -> Outcome {
    let given = hex_answer(request);
    same("the number", given.returned, number)?;
    same("the lent parts", &given.parts, &request.parts)
}

fn twenty_bytes() -> Outcome {
    let image: Vec<u8> = (0xf0..=0xff).chain(1..=4).collect();
    let given = hex_answer(&write_request(sizes(5, 2, 2), &image));
    let due = ":10000000F0F1F2F3F4F5F6F7F8F9FAFBFCFDFEFF78\n:0400100001020304E2\n:00000001FF\n";
    same("the number", given.returned, 0)?;
    same("the text", given.parts.text, due.as_bytes().to_vec())
}

/// The records at the ends of spans, and type 04 between them only.
fn spans() -> Outcome {
    let text = String::from_utf8(text_of::<Correct>(&vec![0; 2 * 65536 + 1])).unwrap();
    let lines: Vec<&str> = text.lines().collect();
    same("lines", lines.len(), 2 * 4096 + 2 + 1 + 1)?;
    same("the first", &lines[0][..9], ":10000000")?;
    same("the last of a span", &lines[4095][..9], ":10FFF000")?;
    same("the upper half", lines[4096], ":020000040001F9")?;
    same("the first of a span", &lines[4097][..9], ":10000000")?;
    same("the second upper half", lines[8193], ":020000040002F8")?;
    same("the last byte", lines[8194], ":0100000000FF")?;
    let whole = text_of::<Correct>(&vec![0; 65536]);
    let uppers = whole.windows(9).filter(|&part| part == b":02000004");
    same("upper halves of one span", uppers.count(), 0)
}

/// As a formula of the number of bytes, the biggest included.
fn lengths() -> Outcome {
    let formula =
        |bytes: usize| 12 * bytes.div_ceil(16) + 2 * bytes + 16 * ((bytes - 1) / 65536) + 12;
    let near_spans = (1..4).flat_map(|spans| 65536 * spans - 40..65536 * spans + 40);
    for bytes in (1..200).chain(near_spans) {
        let text = text_of::<Correct>(&vec![7; bytes]);
        same("the length", text.len(), formula(bytes))?;
        same("the length due", text_length::<Correct>(bytes), text.len())?;
    }
    same("the biggest", text_length::<Correct>(1 << 24), 46_141_436)
}

fn come_back() -> Outcome {
    for (n, m, page_bytes) in [(1, 1, 1), (2, 3, 5), (1, 17, 4096)] {
        let shape = sizes(n, m, page_bytes);
        let image: Vec<u8> = (0..shape.image_bytes()).map(|at| (at * 7) as u8).collect();
        let request = write_request(shape, &image);
        let mut back = request.clone();
        back.call = HexCall::Read;
        back.parts.text = hex_answer(&request).parts.text;
        back.parts.store.fill(1);
        back.parts.marks.fill(2);
        let given = hex_answer(&back).parts;
        ensure(given.store == request.parts.store, || "the store".into())?;
        same("the marks", given.marks, request.parts.marks)?;
    }
    Ok(())
}

fn not_at_rest() -> Outcome {
    let good = write_request(sizes(2, 2, 2), &[9; 8]);
    same("the number", hex_answer(&good).returned, 0)?;
    for slot in 0..6 {
        for mark in [0, 1, 2, 3, 254, 255] {
            let mut wrong = good.clone();
            wrong.parts.marks[slot] = mark;
            if wrong != good {
                refused(&wrong, 5)?;
            }
        }
    }
    for byte in 0..4 {
        let mut wrong = good.clone();
        wrong.parts.store[byte] = 254;
        refused(&wrong, 5)?;
        wrong.parts.text.push(0);
        refused(&wrong, 2)?;
        wrong.sizes.n = 0;
        refused(&wrong, 1)?;
    }
    Ok(())
}
