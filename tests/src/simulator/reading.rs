//! Reading an original in mid-move: which stored pages are summed.

use super::dropping::Term;
use super::flash::Flash;
use super::permutation::Move;
use super::rules::Rules;

/// The terms whose sum is the original, chosen by the list and the marks alone.
/// A dropped page is known without a look at the store.
pub fn terms_of<R: Rules>(moves: &Move, flash: &Flash, original: usize) -> Vec<Term> {
    if R::is_known(moves, original) {
        return vec![Term::Dropped];
    }
    terms_by_rules::<R>(moves, flash, original)
}

/// Read's three rules over the completed list.
pub fn terms_by_rules<R: Rules>(moves: &Move, flash: &Flash, original: usize) -> Vec<Term> {
    let sizes = &moves.sizes;
    let set = moves.set_of(original);
    let v = sizes.block_of(original);
    if flash.full_of(v, sizes.letter(0)) {
        return vec![Term::Stored(sizes.slot_of(original))];
    }
    if flash.full_of(moves.next(set, v), sizes.letter(2)) {
        return vec![Term::Stored(moves.destination_slot(original))];
    }
    let top = R::top(&moves.cycle(set, v));
    if R::goes_back(flash, top) {
        terms_back::<R>(moves, flash, set, v, top)
    } else {
        terms_forward::<R>(moves, flash, set, v)
    }
}

/// Against the moves: coded pages up to the top's, or to a page still plain.
fn terms_back<R: Rules>(
    moves: &Move,
    flash: &Flash,
    set: usize,
    start: usize,
    top: usize,
) -> Vec<Term> {
    let mut terms = vec![];
    let mut v = start;
    loop {
        terms.push(Term::Stored(moves.coded_slot(set, v)));
        if v == top {
            return terms;
        }
        v = moves.pred(set, v);
        let original = moves.original_from(set, v);
        if flash.full_of(v, moves.sizes.letter(0)) {
            terms.push(R::plain_term(moves, original));
            return terms;
        }
        if R::stops_back(moves, original) {
            terms.push(Term::Dropped);
            return terms;
        }
    }
}

/// Along the moves: coded pages up to a page already at its destination.
fn terms_forward<R: Rules>(moves: &Move, flash: &Flash, set: usize, start: usize) -> Vec<Term> {
    let mut terms = vec![];
    for v in moves.cycle(set, moves.next(set, start)) {
        terms.push(Term::Stored(moves.coded_slot(set, v)));
        let original = moves.original_from(set, v);
        if R::forward_ends(moves, flash, set, v) {
            terms.push(R::final_term(moves, original));
            break;
        }
        if R::stops_forward(moves, original) {
            terms.push(Term::Dropped);
            break;
        }
    }
    terms
}
