//! Faults in the number of pages that a run reads.

use super::{fault, Fault};
use crate::simulator::dropping::{stored, Term};
use crate::simulator::request::{Answer, Call, Request};
use crate::simulator::rules::{Correct, Rules};

pub fn faults() -> Vec<Fault> {
    vec![
        fault::<OwnAlways>("reads: a dropped D(i) is counted"),
        fault::<OwnNever>("reads: D(i) is not counted"),
        fault::<The255s>("reads: 255s are counted"),
        fault::<LastPage>("reads: those of the last page alone"),
        fault::<FirstPage>("reads: those of the first page alone"),
        fault::<Writes>("reads: the writes are returned"),
        fault::<Steps>("reads: the steps are returned"),
        fault::<TopOfTwo>("reads: the coded page of a top costs two"),
        fault::<PredNever>("reads: D(pred(i)) is not counted"),
        fault::<OneForEach>("reads: one for each page that is not dropped"),
        fault::<NotTheLast>("reads: the last page of a walk is not counted"),
        fault::<CodedOnly>("reads: a page that is copied costs none"),
        fault::<DroppedWalked>("reads: a dropped page costs what its walk would take"),
        fault::<InAByte>("reads: the number is kept in 8 bits"),
        fault::<In16Bits>("reads: the number is kept in 16 bits"),
        fault::<ByRefused>("reads: a refused run reads a page"),
        fault::<AtLeastOne>("reads: a run reads one page at least"),
    ]
}

fn ran(request: &Request, answer: &Answer) -> bool {
    request.call == Call::Run && answer.numbers.returned == 0
}

struct OwnAlways;

impl Rules for OwnAlways {
    fn own_reads(_term: Term) -> u32 {
        1
    }
}

struct OwnNever;

impl Rules for OwnNever {
    fn own_reads(_term: Term) -> u32 {
        0
    }
}

/// Where a walk ends at a dropped page.
struct The255s;

impl Rules for The255s {
    fn reads(terms: &[Term]) -> u32 {
        match terms {
            [_] => stored(terms).len() as u32,
            _ => terms.len() as u32,
        }
    }
}

struct LastPage;

impl Rules for LastPage {
    fn reads_so_far(_before: u32, page: u32) -> u32 {
        page
    }
}

struct FirstPage;

impl Rules for FirstPage {
    fn reads_so_far(before: u32, page: u32) -> u32 {
        if before == 0 {
            page
        } else {
            before
        }
    }
}

struct Writes;

impl Rules for Writes {
    fn amend(_request: &Request, answer: &mut Answer) {
        answer.numbers.pages_read = answer.numbers.writes;
    }
}

struct Steps;

impl Rules for Steps {
    fn amend(_request: &Request, answer: &mut Answer) {
        answer.numbers.pages_read = answer.numbers.steps;
    }
}

struct TopOfTwo;

impl Rules for TopOfTwo {
    fn coded_reads(own: u32, from_pred: Option<u32>) -> u32 {
        own + from_pred.unwrap_or(1)
    }
}

struct PredNever;

impl Rules for PredNever {
    fn coded_reads(own: u32, _from_pred: Option<u32>) -> u32 {
        own
    }
}

struct OneForEach;

impl Rules for OneForEach {
    fn reads(terms: &[Term]) -> u32 {
        stored(terms).len().min(1) as u32
    }
}

struct NotTheLast;

impl Rules for NotTheLast {
    fn reads(terms: &[Term]) -> u32 {
        match terms {
            [_, _, ..] => Correct::reads(&terms[..terms.len() - 1]),
            _ => Correct::reads(terms),
        }
    }
}

struct CodedOnly;

impl Rules for CodedOnly {
    fn own_reads(term: Term) -> u32 {
        Correct::reads(&[term])
    }

    fn reads(terms: &[Term]) -> u32 {
        match terms {
            [_] => 0,
            _ => Correct::reads(terms),
        }
    }
}

/// The 255s are found without a look at the store, but one page is counted.
struct DroppedWalked;

impl Rules for DroppedWalked {
    fn own_reads(term: Term) -> u32 {
        Correct::reads(&[term])
    }

    fn reads(terms: &[Term]) -> u32 {
        match terms {
            [Term::Dropped] => 1,
            _ => Correct::reads(terms),
        }
    }
}

struct InAByte;

impl Rules for InAByte {
    fn reads_so_far(before: u32, page: u32) -> u32 {
        (before + page) % 256
    }
}

struct In16Bits;

impl Rules for In16Bits {
    fn reads_so_far(before: u32, page: u32) -> u32 {
        (before + page) % 65536
    }
}

struct ByRefused;

impl Rules for ByRefused {
    fn amend(request: &Request, answer: &mut Answer) {
        if request.call == Call::Run && answer.numbers.returned != 0 {
            answer.numbers.pages_read = 1;
        }
    }
}

struct AtLeastOne;

impl Rules for AtLeastOne {
    fn amend(request: &Request, answer: &mut Answer) {
        if ran(request, answer) && answer.numbers.pages_read == 0 {
            answer.numbers.pages_read = 1;
        }
    }
}
