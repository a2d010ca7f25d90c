//! The two HEX calls: a request in, an answer out.

use super::reader::read_image;
use super::request::{HexAnswer, HexCall, HexPart, HexParts, HexRequest};
use super::rules::HexRules;
use super::writer::{text_length, text_of};
use crate::simulator::flash::Flash;
use crate::simulator::rules::Correct;
use crate::simulator::sizes::{Sizes, UNWRITTEN};

/// What is looked for before the records.
#[derive(Clone, Copy, Debug, PartialEq)]
pub enum HexRefusal {
    Sizes = 1,
    Lengths = 2,
    Place = 5,
}

pub fn order(call: HexCall) -> &'static [HexRefusal] {
    use HexRefusal::*;
    match call {
        HexCall::Read => &[Sizes, Lengths],
        HexCall::Write => &[Sizes, Lengths, Place],
    }
}

/// What a mover must answer.
pub fn hex_answer(request: &HexRequest) -> HexAnswer {
    hex_answer_by::<Correct>(request)
}

/// What a mover with these rules answers.
pub fn hex_answer_by<R: HexRules>(request: &HexRequest) -> HexAnswer {
    let mut answer = HexAnswer {
        returned: 0,
        parts: request.parts.clone(),
    };
    let mut looked_for = R::refusal_order(request.call).iter();
    if let Some(&refusal) = looked_for.find(|&&refusal| applies::<R>(refusal, request)) {
        answer.returned = refusal as u32;
    } else {
        match request.call {
            HexCall::Read => read::<R>(request, &mut answer),
            HexCall::Write => write::<R>(request, &mut answer),
        }
    }
    R::amend(request, &mut answer);
    answer
}

fn applies<R: HexRules>(refusal: HexRefusal, request: &HexRequest) -> bool {
    match refusal {
        HexRefusal::Sizes => !R::sizes_fit(&request.sizes),
        HexRefusal::Lengths => !lengths_fit::<R>(request),
        HexRefusal::Place => {
            let HexParts { store, marks, .. } = &request.parts;
            !R::is_at_rest(&Flash::new(request.sizes, store, marks))
        }
    }
}

/// A text that is read has any length.
fn lengths_fit<R: HexRules>(request: &HexRequest) -> bool {
    let parts: &[HexPart] = match request.call {
        HexCall::Read => &[HexPart::Store, HexPart::Marks],
        HexCall::Write => &[HexPart::Store, HexPart::Marks, HexPart::Text],
    };
    parts.iter().all(|&part| {
        let due = due_length::<R>(&request.sizes, part);
        R::length_fits(part, request.parts.get(part).len(), due)
    })
}

/// For sizes in their ranges.
pub fn due_length<R: HexRules>(sizes: &Sizes, part: HexPart) -> usize {
    match part {
        HexPart::Text => text_length::<R>(sizes.image_bytes()),
        HexPart::Store => sizes.slots() * sizes.bytes(),
        HexPart::Marks => sizes.slots(),
    }
}

/// A mover that takes longer parts leaves the rest.
fn put(part: &mut [u8], content: impl IntoIterator<Item = u8>) {
    for (to, from) in part.iter_mut().zip(content) {
        *to = from;
    }
}

fn read<R: HexRules>(request: &HexRequest, answer: &mut HexAnswer) {
    let sizes = &request.sizes;
    match read_image::<R>(sizes.image_bytes(), &request.parts.text) {
        Err(fault) => answer.returned = fault,
        Ok(image) => {
            let spare = vec![255; sizes.spare_bytes()];
            put(&mut answer.parts.store, spare.into_iter().chain(image));
            let unwritten = vec![UNWRITTEN; sizes.pages()];
            let marks = vec![R::MARK; sizes.originals()];
            put(&mut answer.parts.marks, unwritten.into_iter().chain(marks));
        }
    }
}

fn write<R: HexRules>(request: &HexRequest, answer: &mut HexAnswer) {
    let start = request.sizes.spare_bytes();
    let image = &request.parts.store[start..start + request.sizes.image_bytes()];
    put(&mut answer.parts.text, text_of::<R>(image));
}
