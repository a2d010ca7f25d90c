//! Faults in what the HEX calls refuse before they look at a record, and in
//! what a refusal leaves.

use super::{but_for, fault, HexFault};
use crate::simulator::flash::Flash;
use crate::simulator::hex::calls::{order, HexRefusal};
use crate::simulator::hex::request::{HexAnswer, HexCall, HexPart, HexRequest};
use crate::simulator::hex::rules::HexRules;
use crate::simulator::hex::writer::text_length;
use crate::simulator::rules::{Correct, Rules};
use crate::simulator::sizes::Sizes;

pub fn faults() -> Vec<HexFault> {
    vec![
        fault::<LengthsFirst>("a HEX call looks for 2 before 1"),
        fault::<PlaceFirst>("the HEX writer looks for 5 before 2"),
        fault::<LongText>("a HEX text too long is written"),
        fault::<LongStore>("a store too long is taken by a HEX call"),
        fault::<LongMarks>("marks too long are taken by a HEX call"),
        fault::<ReaderTextLength>("the HEX reader asks for the writer's length"),
        fault::<NarrowBlocks>("n = 64 is refused by a HEX call"),
        fault::<NarrowBytes>("P = 4,096 is refused by a HEX call"),
        fault::<WidePages>("m = 65 is taken by a HEX call"),
        fault::<AnyMark>("the HEX writer takes any one letter for mark 0"),
        fault::<SpareByMarks>("the HEX writer does not look at the spare's bytes"),
        fault::<HalfWrittenSpare>("the HEX writer takes a half-written mark for 255"),
        fault::<SpareMarksUnseen>("the HEX writer does not look at the spare's marks"),
        fault::<ClearsFirst>("the store is cleared before the HEX text is judged"),
        fault::<MarksFirst>("the marks are set before the HEX text is judged"),
        fault::<FillsRefused>("the HEX text of a refused store is begun"),
    ]
}

fn in_range(sizes: &Sizes) -> bool {
    <Correct as Rules>::sizes_fit(sizes)
}

but_for! {
    LengthsFirst {
        fn refusal_order(call: HexCall) -> &'static [HexRefusal] {
            match call {
                HexCall::Read => order(call),
                HexCall::Write => &[HexRefusal::Lengths, HexRefusal::Sizes, HexRefusal::Place],
            }
        }
    }
    PlaceFirst {
        fn length_fits(part: HexPart, given: usize, due: usize) -> bool {
            given == due || part == HexPart::Text
        }
        fn amend(request: &HexRequest, answer: &mut HexAnswer) {
            let parts = &request.parts;
            let written = request.call == HexCall::Write && answer.returned == 0;
            if written && parts.text.len() != text_length::<Correct>(request.sizes.image_bytes()) {
                *answer = HexAnswer { returned: 2, parts: parts.clone() };
            }
        }
    }
    LongText {
        fn length_fits(part: HexPart, given: usize, due: usize) -> bool {
            given == due || part == HexPart::Text && given > due
        }
    }
    LongStore {
        fn length_fits(part: HexPart, given: usize, due: usize) -> bool {
            given == due || part == HexPart::Store && given > due
        }
    }
    LongMarks {
        fn length_fits(part: HexPart, given: usize, due: usize) -> bool {
            given == due || part == HexPart::Marks && given > due
        }
    }
    ReaderTextLength {
        fn amend(request: &HexRequest, answer: &mut HexAnswer) {
            let parts = &request.parts;
            let read = request.call == HexCall::Read && answer.returned != 1;
            if read && parts.text.len() > text_length::<Correct>(request.sizes.image_bytes()) {
                *answer = HexAnswer { returned: 2, parts: parts.clone() };
            }
        }
    }
    NarrowBlocks {
        fn sizes_fit(sizes: &Sizes) -> bool {
            in_range(sizes) && sizes.n < 64
        }
    }
    NarrowBytes {
        fn sizes_fit(sizes: &Sizes) -> bool {
            in_range(sizes) && sizes.page_bytes < 4096
        }
    }
    WidePages {
        fn sizes_fit(sizes: &Sizes) -> bool {
            in_range(&Sizes { m: if sizes.m == 65 { 64 } else { sizes.m }, ..*sizes })
        }
    }
    AnyMark {
        fn is_at_rest(flash: &Flash) -> bool {
            let letters = (0..3).map(|s| Sizes { s, ..flash.sizes });
            letters.into_iter().any(|sizes| Correct::is_at_rest(&Flash { sizes, ..flash.clone() }))
        }
    }
    SpareByMarks {
        fn is_at_rest(flash: &Flash) -> bool {
            let mut seen = flash.clone();
            seen.store.fill(255);
            Correct::is_at_rest(&seen)
        }
    }
    HalfWrittenSpare {
        fn is_at_rest(flash: &Flash) -> bool {
            let mut seen = flash.clone();
            let spare = seen.marks[..flash.sizes.pages()].iter_mut();
            spare.filter(|mark| **mark > 2).for_each(|mark| *mark = 255);
            Correct::is_at_rest(&seen)
        }
    }
    SpareMarksUnseen {
        fn is_at_rest(flash: &Flash) -> bool {
            let mut seen = flash.clone();
            seen.marks[..flash.sizes.pages()].fill(255);
            Correct::is_at_rest(&seen)
        }
    }
    ClearsFirst {
        fn amend(_request: &HexRequest, answer: &mut HexAnswer) {
            if answer.returned > 7 {
                answer.parts.store.fill(255);
            }
        }
    }
    MarksFirst {
        fn amend(_request: &HexRequest, answer: &mut HexAnswer) {
            if answer.returned > 7 {
                answer.parts.marks.fill(0);
            }
        }
    }
    FillsRefused {
        fn amend(_request: &HexRequest, answer: &mut HexAnswer) {
            if answer.returned == 5 {
                answer.parts.text[0] = b':';
            }
        }
    }
}
