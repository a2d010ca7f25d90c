//! Faults in the run.

use super::{fault, Fault};
use crate::simulator::calls::answer;
use crate::simulator::flash::Flash;
use crate::simulator::request::{Answer, Call, Request};
use crate::simulator::rules::{Correct, Rules};
use crate::simulator::sizes::UNWRITTEN;

pub fn faults() -> Vec<Fault> {
    vec![
        fault::<LowestTop>("the lowest block is the top"),
        fault::<CodedAlone>("a coded page lacks D(pred)"),
        fault::<BlankByBytes>("blank is judged by the bytes alone"),
        fault::<BlankByMark>("blank is judged by the mark alone"),
        fault::<HalfWrittenBlank>("run takes a half-written mark for 255"),
        fault::<StopsEarly>("a run stops one step early"),
        fault::<BudgetWraps>("place and budget run over 32 bits"),
        fault::<StepsAreBudget>("steps are the budget given"),
        fault::<FinishedEarly>("finished one place too early"),
        fault::<NotFinishedAtEnd>("a run at the end is stopped"),
        fault::<Pretends>("only the first step is done, all are reported"),
        fault::<WorkAtErase>("an erase changes the work page"),
        fault::<EraseLeavesByte>("an erase leaves the block's last byte"),
        fault::<OwnSplit>("run and read make their own split"),
        fault::<RefusedTouchesWork>("a refused call touches the work page"),
    ]
}

struct LowestTop;

impl Rules for LowestTop {
    fn top(cycle: &[usize]) -> usize {
        cycle.iter().copied().fold(usize::MAX, usize::min)
    }
}

struct CodedAlone;

impl Rules for CodedAlone {
    fn coded_page(own: Vec<u8>, _from_pred: Option<Vec<u8>>) -> Vec<u8> {
        own
    }
}

struct BlankByBytes;

impl Rules for BlankByBytes {
    fn page_fits(flash: &Flash, slot: usize, due: u8) -> bool {
        match due {
            UNWRITTEN => flash.all_bytes_255(slot),
            letter => flash.marks[slot] == letter,
        }
    }
}

struct BlankByMark;

impl Rules for BlankByMark {
    fn page_fits(flash: &Flash, slot: usize, due: u8) -> bool {
        flash.marks[slot] == due
    }
}

struct HalfWrittenBlank;

impl Rules for HalfWrittenBlank {
    fn page_fits(flash: &Flash, slot: usize, due: u8) -> bool {
        match due {
            UNWRITTEN => !flash.is_whole(slot) && flash.all_bytes_255(slot),
            letter => flash.marks[slot] == letter,
        }
    }
}

struct StopsEarly;

impl Rules for StopsEarly {
    fn steps_to_take(place: u32, budget: u32, all: u32) -> u32 {
        match Correct::steps_to_take(place, budget, all) {
            0 | 1 => budget.min(all - place),
            more => more - 1,
        }
    }
}

struct BudgetWraps;

impl Rules for BudgetWraps {
    fn steps_to_take(place: u32, budget: u32, all: u32) -> u32 {
        place.wrapping_add(budget).min(all).saturating_sub(place)
    }
}

fn run_done(request: &Request, answer: &Answer) -> bool {
    request.call == Call::Run && answer.numbers.returned == 0
}

struct StepsAreBudget;

impl Rules for StepsAreBudget {
    fn amend(request: &Request, answer: &mut Answer) {
        if run_done(request, answer) {
            answer.numbers.steps = request.budget;
        }
    }
}

struct FinishedEarly;

impl Rules for FinishedEarly {
    fn amend(request: &Request, answer: &mut Answer) {
        if run_done(request, answer) && answer.numbers.place as usize + 1 == request.sizes.steps() {
            answer.numbers.finished = 1;
        }
    }
}

struct NotFinishedAtEnd;

impl Rules for NotFinishedAtEnd {
    fn amend(request: &Request, answer: &mut Answer) {
        if run_done(request, answer) && answer.numbers.steps == 0 {
            answer.numbers.finished = 0;
        }
    }
}

struct Pretends;

impl Rules for Pretends {
    fn amend(request: &Request, given: &mut Answer) {
        if run_done(request, given) && request.budget > 1 {
            let first_step = Request {
                budget: 1,
                ..request.clone()
            };
            given.parts = answer(&first_step).parts;
        }
    }
}

struct WorkAtErase;

impl Rules for WorkAtErase {
    fn amend(request: &Request, answer: &mut Answer) {
        if run_done(request, answer) && answer.numbers.erases > 0 && answer.numbers.writes == 0 {
            answer.parts.work.fill(255);
        }
    }
}

struct EraseLeavesByte;

impl Rules for EraseLeavesByte {
    fn amend(request: &Request, answer: &mut Answer) {
        let last_block_erased = answer.parts.marks.last() == Some(&UNWRITTEN);
        if run_done(request, answer) && last_block_erased {
            let last = answer.parts.store.len() - 1;
            answer.parts.store[last] = request.parts.store[last];
        }
    }
}

struct OwnSplit;

impl Rules for OwnSplit {
    fn amend(request: &Request, given: &mut Answer) {
        let takes_sets = matches!(request.call, Call::Run | Call::Read);
        if !takes_sets || given.numbers.returned != 0 {
            return;
        }
        let mut own = request.clone();
        own.call = Call::Split;
        own.parts.sets = answer(&own).parts.sets;
        own.call = request.call;
        *given = answer(&own);
        given.parts.sets = request.parts.sets.clone();
    }
}

struct RefusedTouchesWork;

impl Rules for RefusedTouchesWork {
    fn amend(_request: &Request, answer: &mut Answer) {
        if answer.numbers.returned != 0 {
            answer.parts.work.fill(0);
        }
    }
}
