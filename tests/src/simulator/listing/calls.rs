//! The call that checks a listing: a request in, an answer out.

use super::lines::{line_of, lines, Line, Sizes};
use super::request::{ListingAnswer, ListingRequest};
use super::rules::ListingRules;
use super::state::{sum_of, State};
use crate::simulator::rules::Correct;

/// What a mover must answer.
pub fn listing_answer(request: &ListingRequest) -> ListingAnswer {
    listing_answer_by::<Correct>(request)
}

/// What a mover with these rules answers.
pub fn listing_answer_by<R: ListingRules>(request: &ListingRequest) -> ListingAnswer {
    let mut answer = ListingAnswer::default();
    match refusal::<R>(request) {
        Some(number) => answer.returned = number,
        None => match follow::<R>(request) {
            Ok(accepted) => answer.accepted = accepted as u32,
            Err((number, index)) => {
                answer.returned = number;
                answer.line = R::line_number(index);
            }
        },
    }
    R::amend(request, &mut answer);
    answer
}

/// What is looked for before the lines.
fn refusal<R: ListingRules>(request: &ListingRequest) -> Option<u32> {
    if !R::sizes_fit(request.n, request.m) {
        Some(1)
    } else if !R::length_fits(request.list.len(), request.originals()) {
        Some(2)
    } else if !R::list_fits(&request.entries()) {
        Some(3)
    } else {
        None
    }
}

const MALFORMED: u32 = 13;
const NOT_WRITABLE: u32 = 14;
const LOST: u32 = 15;

/// Line by line: whether the listing is accepted, or the first fault and the
/// index of its line.
fn follow<R: ListingRules>(request: &ListingRequest) -> Result<bool, (u32, usize)> {
    let sizes = Sizes {
        blocks: request.n as usize + 1,
        pages: request.m as usize,
        originals: request.originals(),
    };
    let mut state = State::at_rest(&sizes);
    let mut end = None;
    for (index, line) in lines(&request.text).enumerate() {
        if end.is_some() {
            if R::ends() {
                return Err((MALFORMED, index));
            }
            break;
        }
        let line = line_of::<R>(line, index, &sizes).ok_or((MALFORMED, index))?;
        let before = state.clone();
        match &line {
            Line::Write {
                block,
                page,
                originals,
            } => {
                if !R::may_write(&state, *block, *page) {
                    return Err((NOT_WRITABLE, index));
                }
                state.write(*block, *page, sum_of(originals));
            }
            Line::Erase { block } => {
                let written = R::written_after_erase(state.written[*block]);
                state.erase(*block);
                state.written[*block] = written;
            }
            Line::End { writes, erases } => end = Some((*writes, *erases)),
        }
        let kept = R::all_determined(&state, sizes.originals);
        if !kept || !R::survives(&before, &line, sizes.originals) {
            return Err((LOST, index));
        }
    }
    let requested = R::is_requested(&state, &request.entries(), sizes.pages);
    Ok(match end {
        None => R::endless_accepted() && requested,
        Some((writes, erases)) => R::counts_true(&state, writes, erases) && requested,
    })
}
