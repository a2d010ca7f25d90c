//! Faults in the count of written bytes.

use super::{fault, Fault};
use crate::simulator::calls::move_of;
use crate::simulator::dropping::{stored, Term};
use crate::simulator::flash::Flash;
use crate::simulator::permutation::Move;
use crate::simulator::reading::terms_of;
use crate::simulator::request::{Answer, Call, Request};
use crate::simulator::rules::{Correct, Rules};
use crate::simulator::running::take_step;
use crate::simulator::steps::{all_steps, Step};
use std::mem::swap;

pub fn faults() -> Vec<Fault> {
    vec![
        fault::<The255s>("the bytes that are 255 are counted"),
        fault::<EveryByte>("every byte of a page is counted"),
        fault::<NotZero>("the bytes that are not 0 are counted"),
        fault::<ButTheLast>("the last byte of a page is not counted"),
        fault::<PagesRead>("the pages read are counted, not their sum"),
        fault::<LastPageOnly>("run counts its last page alone"),
        fault::<PageBefore>("the count is that of the page before"),
        fault::<PageInAByte>("the count of a page is kept in 8 bits"),
        fault::<TotalIn16Bits>("the total of a run is kept in 16 bits"),
        fault::<CountsRefused>("a refusal comes with the count of the work page"),
        fault::<Exchanged>("read's two counts change places"),
    ]
}

fn done(request: &Request, answer: &Answer, call: Call) -> bool {
    request.call == call && answer.numbers.returned == 0
}

struct The255s;

impl Rules for The255s {
    fn written_bytes(page: &[u8]) -> u32 {
        page.len() as u32 - Correct::written_bytes(page)
    }
}

struct EveryByte;

impl Rules for EveryByte {
    fn written_bytes(page: &[u8]) -> u32 {
        page.len() as u32
    }
}

struct NotZero;

impl Rules for NotZero {
    fn written_bytes(page: &[u8]) -> u32 {
        page.iter().filter(|&&byte| byte != 0).count() as u32
    }
}

struct ButTheLast;

impl Rules for ButTheLast {
    fn written_bytes(page: &[u8]) -> u32 {
        Correct::written_bytes(&page[..page.len() - 1])
    }
}

struct PagesRead;

impl Rules for PagesRead {
    fn amend(request: &Request, answer: &mut Answer) {
        if answer.numbers.returned != 0 || !matches!(request.call, Call::Run | Call::Read) {
            return;
        }
        let moves = move_of::<Correct>(request);
        let mut flash = Flash::new(request.sizes, &request.parts.store, &request.parts.marks);
        if request.call == Call::Read {
            let terms = terms_of::<Correct>(&moves, &flash, request.original as usize);
            answer.numbers.written_bytes = written_in(&flash, &terms);
            return;
        }
        answer.numbers.written_bytes = 0;
        let steps = all_steps(&request.sizes).into_iter();
        let taken = answer.numbers.steps as usize;
        for step in steps.skip(request.place as usize).take(taken) {
            let terms = terms_read(&moves, &flash, step);
            answer.numbers.written_bytes += written_in(&flash, &terms);
            take_step::<Correct>(&moves, &mut flash, step);
        }
    }
}

fn written_in(flash: &Flash, terms: &[Term]) -> u32 {
    let slots = stored(terms).into_iter();
    slots
        .map(|slot| Correct::written_bytes(flash.page(slot)))
        .sum()
}

/// The stored pages that the page of a step is the sum of.
fn terms_read(moves: &Move, flash: &Flash, step: Step) -> Vec<Term> {
    match step {
        Step::Erase { .. } => vec![],
        Step::WriteFinal { block, page } => {
            terms_of::<Correct>(moves, flash, moves.original_to(block, page))
        }
        Step::WriteCoded { block, page: set } => {
            let i = block + 1;
            let own = Correct::own_term(moves, moves.original_from(set, i));
            if Correct::top(&moves.cycle(set, i)) == i {
                return vec![own];
            }
            let coming = moves.original_from(set, moves.pred(set, i));
            [vec![own], terms_of::<Correct>(moves, flash, coming)].concat()
        }
    }
}

struct LastPageOnly;

impl Rules for LastPageOnly {
    fn amend(request: &Request, answer: &mut Answer) {
        if done(request, answer, Call::Run) && answer.numbers.writes > 0 {
            answer.numbers.written_bytes = Correct::written_bytes(&answer.parts.work);
        }
    }
}

/// The work page is looked at before the next page is in it.
struct PageBefore;

impl Rules for PageBefore {
    fn amend(request: &Request, answer: &mut Answer) {
        let wrote = done(request, answer, Call::Run) && answer.numbers.writes > 0;
        if wrote || done(request, answer, Call::Read) {
            answer.numbers.written_bytes += Correct::written_bytes(&request.parts.work);
            answer.numbers.written_bytes -= Correct::written_bytes(&answer.parts.work);
        }
    }
}

struct PageInAByte;

impl Rules for PageInAByte {
    fn written_bytes(page: &[u8]) -> u32 {
        Correct::written_bytes(page) % 256
    }
}

struct TotalIn16Bits;

impl Rules for TotalIn16Bits {
    fn amend(_request: &Request, answer: &mut Answer) {
        answer.numbers.written_bytes %= 65536;
    }
}

struct CountsRefused;

impl Rules for CountsRefused {
    fn amend(request: &Request, answer: &mut Answer) {
        if answer.numbers.returned != 0 && request.call != Call::Mend {
            answer.numbers.written_bytes = Correct::written_bytes(&answer.parts.work);
        }
    }
}

struct Exchanged;

impl Rules for Exchanged {
    fn amend(request: &Request, answer: &mut Answer) {
        if request.call == Call::Read {
            let numbers = &mut answer.numbers;
            swap(&mut numbers.count, &mut numbers.written_bytes);
        }
    }
}
