//! Faults in what is refused before the lines.

use super::{but_for, fault, ListingFault};
use crate::simulator::listing::calls::listing_answer;
use crate::simulator::listing::request::{ListingAnswer, ListingRequest};
use crate::simulator::listing::rules::ListingRules;
use crate::simulator::listing::state::State;
use crate::simulator::rules::Correct;

pub fn faults() -> Vec<ListingFault> {
    vec![
        fault::<Wide>("listings: n x m above 64 is taken up to 4,096"),
        fault::<Narrow>("listings: n x m of 64 is refused"),
        fault::<ProductIn32Bits>("listings: the product of n and m is taken in 32 bits"),
        fault::<LongList>("listings: a list one entry too long is taken"),
        fault::<AnyList>("listings: the list is not looked at"),
        fault::<Drops>("listings: an entry of 65535 drops its page"),
        fault::<TwiceTaken>("listings: an entry met twice is taken"),
        fault::<ListFirst>("listings: 3 is looked for before 2"),
        fault::<LineOfRefusal>("listings: a refused list comes with a line"),
        fault::<LinesFirst>("listings: a faulty line comes before a bad list"),
    ]
}

fn without_length(request: &ListingRequest) -> bool {
    Correct::sizes_fit(request.n, request.m) && request.list.len() != 2 * request.originals()
}

but_for! {
    // Nothing else is looked at, so that a big list is answered "no".
    Wide {
        fn amend(request: &ListingRequest, answer: &mut ListingAnswer) {
            let within = (1..=64).contains(&request.n) && (1..=64).contains(&request.m);
            if answer.returned == 1 && within {
                answer.returned = 0;
            }
        }
    }
    Narrow {
        fn sizes_fit(n: u32, m: u32) -> bool {
            Correct::sizes_fit(n, m) && n * m < 64
        }
    }
    ProductIn32Bits {
        fn amend(request: &ListingRequest, answer: &mut ListingAnswer) {
            if answer.returned == 1 && request.n.wrapping_mul(request.m) <= 64 {
                answer.returned = 2;
            }
        }
    }
    LongList {
        fn amend(request: &ListingRequest, answer: &mut ListingAnswer) {
            if answer.returned == 2 && request.list.len() == 2 * request.originals() + 2 {
                let mut shorter = request.clone();
                shorter.list.truncate(2 * request.originals());
                *answer = listing_answer(&shorter);
            }
        }
    }
    AnyList {
        fn amend(_request: &ListingRequest, answer: &mut ListingAnswer) {
            if answer.returned == 3 {
                answer.returned = 0;
            }
        }
    }
    Drops {
        fn list_fits(entries: &[usize]) -> bool {
            let kept: Vec<usize> = entries.iter().copied().filter(|&entry| entry != 65535).collect();
            let mut once = kept.clone();
            once.sort();
            once.dedup();
            once.len() == kept.len() && once.iter().all(|&entry| entry < entries.len())
        }
        fn is_requested(state: &State, entries: &[usize], pages: usize) -> bool {
            !entries.contains(&65535) && Correct::is_requested(state, entries, pages)
        }
    }
    TwiceTaken {
        fn list_fits(entries: &[usize]) -> bool {
            entries.iter().all(|&entry| entry < entries.len())
        }
    }
    ListFirst {
        fn amend(request: &ListingRequest, answer: &mut ListingAnswer) {
            let entries = request.entries();
            let bad = entries.iter().any(|&entry| entry >= request.originals());
            if without_length(request) && bad {
                answer.returned = 3;
            }
        }
    }
    LineOfRefusal {
        fn amend(_request: &ListingRequest, answer: &mut ListingAnswer) {
            if answer.returned == 3 {
                answer.line = 1;
            }
        }
    }
    LinesFirst {
        fn amend(request: &ListingRequest, answer: &mut ListingAnswer) {
            if answer.returned == 3 && request.text.starts_with(b"x") {
                (answer.returned, answer.line) = (13, 1);
            }
        }
    }
}
