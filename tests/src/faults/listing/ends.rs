//! Faults in the last word: yes or no.

use super::{but_for, fault, ListingFault};
use crate::simulator::listing::request::{ListingAnswer, ListingRequest};
use crate::simulator::listing::rules::ListingRules;
use crate::simulator::listing::state::State;
use crate::simulator::rules::Correct;

pub fn faults() -> Vec<ListingFault> {
    vec![
        fault::<AnyCounts>("listings: the end counts are not looked at"),
        fault::<WritesOnly>("listings: the erases of the end line are not looked at"),
        fault::<CountsExchanged>("listings: the end line has erases first"),
        fault::<CountsIn32Bits>("listings: the end counts are taken in 32 bits"),
        fault::<AnyEnd>("listings: the last state is not looked at"),
        fault::<SpareFull>("listings: the spare need not be blank at the end"),
        fault::<PartOfSum>("listings: a sum with the original in it will do at the end"),
        fault::<Backwards>("listings: the list is taken backwards"),
        fault::<StillAtRest>("listings: the state at rest is accepted for every list"),
        fault::<NoEnd>("listings: no end line is needed"),
        fault::<NotAtRest>("listings: a listing without steps is not accepted"),
        fault::<LinesFromZero>("listings: lines are counted from 0"),
        fault::<NoIsARefusal>("listings: no comes with a number"),
        fault::<LineOfNo>("listings: no comes with the last line"),
        fault::<AllAccepted>("listings: every listing is accepted"),
        fault::<NoneAccepted>("listings: no listing is accepted"),
    ]
}

but_for! {
    AnyCounts {
        fn counts_true(_state: &State, _writes: u64, _erases: u64) -> bool {
            true
        }
    }
    WritesOnly {
        fn counts_true(state: &State, writes: u64, _erases: u64) -> bool {
            writes == state.writes
        }
    }
    CountsExchanged {
        fn counts_true(state: &State, writes: u64, erases: u64) -> bool {
            Correct::counts_true(state, erases, writes)
        }
    }
    CountsIn32Bits {
        fn counts_true(state: &State, writes: u64, erases: u64) -> bool {
            Correct::counts_true(state, writes % (1 << 32), erases % (1 << 32))
        }
    }
    AnyEnd {
        fn is_requested(_state: &State, _entries: &[usize], _pages: usize) -> bool {
            true
        }
    }
    SpareFull {
        fn is_requested(state: &State, entries: &[usize], pages: usize) -> bool {
            let mut cleared = state.clone();
            cleared.pages[0].fill(None);
            Correct::is_requested(&cleared, entries, pages)
        }
    }
    PartOfSum {
        fn is_requested(state: &State, entries: &[usize], pages: usize) -> bool {
            let spare_blank = state.pages[0].iter().all(Option::is_none);
            let mut sent = entries.iter().enumerate();
            let at = |number: usize| state.pages[number / pages + 1][number % pages];
            let has = |k: usize, number: usize| at(number).is_some_and(|sum| sum >> k & 1 == 1);
            spare_blank && sent.all(|(k, &number)| has(k, number))
        }
    }
    Backwards {
        fn is_requested(state: &State, entries: &[usize], pages: usize) -> bool {
            let mut inverse = vec![0; entries.len()];
            for (k, &number) in entries.iter().enumerate() {
                inverse[number] = k;
            }
            Correct::is_requested(state, &inverse, pages)
        }
    }
    StillAtRest {
        fn is_requested(state: &State, entries: &[usize], pages: usize) -> bool {
            let identity: Vec<usize> = (0..entries.len()).collect();
            let at_rest = Correct::is_requested(state, &identity, pages);
            at_rest || Correct::is_requested(state, entries, pages)
        }
    }
    NoEnd {
        fn endless_accepted() -> bool {
            true
        }
    }
    NotAtRest {
        fn is_requested(state: &State, entries: &[usize], pages: usize) -> bool {
            state.writes > 0 && Correct::is_requested(state, entries, pages)
        }
    }
    LinesFromZero {
        fn line_number(index: usize) -> u32 {
            index as u32
        }
    }
    NoIsARefusal {
        fn amend(_request: &ListingRequest, answer: &mut ListingAnswer) {
            if answer.returned == 0 && answer.accepted == 0 {
                answer.returned = 15;
            }
        }
    }
    LineOfNo {
        fn amend(request: &ListingRequest, answer: &mut ListingAnswer) {
            if answer.returned == 0 && answer.accepted == 0 {
                answer.line = request.text.iter().filter(|&&byte| byte == b'\n').count() as u32;
            }
        }
    }
    AllAccepted {
        fn amend(_request: &ListingRequest, answer: &mut ListingAnswer) {
            answer.accepted |= (answer.returned == 0) as u32;
        }
    }
    NoneAccepted {
        fn amend(_request: &ListingRequest, answer: &mut ListingAnswer) {
            answer.accepted = 0;
        }
    }
}
