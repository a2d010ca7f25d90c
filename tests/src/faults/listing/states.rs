//! Faults in what is written, and in what is lost.

use super::{but_for, fault, ListingFault};
use crate::simulator::listing::calls::listing_answer_by;
use crate::simulator::listing::lines::Line;
use crate::simulator::listing::request::{ListingAnswer, ListingRequest};
use crate::simulator::listing::rules::ListingRules;
use crate::simulator::listing::state::{all, determined, State, Sum};
use crate::simulator::rules::Correct;

pub fn faults() -> Vec<ListingFault> {
    vec![
        fault::<OverWritten>("listings: a page that is not blank may be written"),
        fault::<NotRising>("listings: pages need not rise within a block"),
        fault::<NoneSkipped>("listings: no page may be skipped"),
        fault::<RisingForever>("listings: an erase does not let pages rise anew"),
        fault::<RestCounts>("listings: the pages at rest are not there to be overwritten"),
        fault::<OneMayBeLost>("listings: one original may be lost"),
        fault::<PlainOrNothing>("listings: an original has to lie plain"),
        fault::<TwoPages>("listings: originals are had from two pages at most"),
        fault::<NamedSomewhere>("listings: an original named in a page is taken as kept"),
        fault::<CountsPages>("listings: as many pages as originals are taken as enough"),
        fault::<SpareErased>("listings: erases of the spare are not looked at"),
        fault::<LostAtTheEnd>("listings: what is lost is looked for after the last line"),
        fault::<LineBefore>("listings: 15 is told of the line before"),
        fault::<FirstLost>("listings: only the first original is looked for"),
        fault::<LastLost>("listings: the last original is not looked for"),
        fault::<ThirtyTwo>("listings: sums have 32 bits"),
    ]
}

but_for! {
    OverWritten {
        fn may_write(state: &State, block: usize, page: usize) -> bool {
            state.written[block].is_none_or(|highest| page > highest)
        }
    }
    NotRising {
        fn may_write(state: &State, block: usize, page: usize) -> bool {
            state.pages[block][page].is_none()
        }
    }
    NoneSkipped {
        fn may_write(state: &State, block: usize, page: usize) -> bool {
            let next = state.written[block].map_or(0, |highest| highest + 1);
            Correct::may_write(state, block, page) && page == next
        }
    }
    RisingForever {
        fn written_after_erase(before: Option<usize>) -> Option<usize> {
            before
        }
    }
    RestCounts {
        fn may_write(state: &State, block: usize, page: usize) -> bool {
            let k = block.wrapping_sub(1).wrapping_mul(state.pages[0].len()).wrapping_add(page);
            let at_rest = block > 0 && state.pages[block][page] == Some(1 << k);
            at_rest && state.written[block].is_none() || Correct::may_write(state, block, page)
        }
    }
    OneMayBeLost {
        fn all_determined(state: &State, originals: usize) -> bool {
            determined(&state.sums(), originals).count_ones() as usize + 1 >= originals
        }
    }
    PlainOrNothing {
        fn all_determined(state: &State, originals: usize) -> bool {
            let plain = state.sums().into_iter().filter(|sum| sum.count_ones() == 1);
            plain.fold(0, |set, sum| set | sum) == all(originals)
        }
    }
    TwoPages {
        fn all_determined(state: &State, originals: usize) -> bool {
            let sums = state.sums();
            let mut known: Sum = 0;
            for &one in &sums {
                for &two in sums.iter().chain(&[0]) {
                    if (one ^ two).count_ones() == 1 {
                        known |= one ^ two;
                    }
                }
            }
            known == all(originals)
        }
    }
    NamedSomewhere {
        fn all_determined(state: &State, originals: usize) -> bool {
            state.sums().into_iter().fold(0, |set, sum| set | sum) == all(originals)
        }
    }
    CountsPages {
        fn all_determined(state: &State, originals: usize) -> bool {
            state.sums().len() >= originals
        }
    }
    SpareErased {
        fn survives(before: &State, line: &Line, originals: usize) -> bool {
            *line == Line::Erase { block: 0 } || Correct::survives(before, line, originals)
        }
        fn all_determined(state: &State, originals: usize) -> bool {
            let blank = state.pages[0].iter().all(Option::is_none);
            blank || Correct::all_determined(state, originals)
        }
    }
    LostAtTheEnd {
        fn amend(request: &ListingRequest, answer: &mut ListingAnswer) {
            if answer.returned == 15 {
                answer.line = request.text.iter().filter(|&&byte| byte == b'\n').count() as u32;
            }
        }
    }
    LineBefore {
        fn amend(_request: &ListingRequest, answer: &mut ListingAnswer) {
            if answer.returned == 15 {
                answer.line -= 1;
            }
        }
    }
    FirstLost {
        fn all_determined(state: &State, originals: usize) -> bool {
            determined(&state.sums(), originals) & 1 == 1
        }
    }
    LastLost {
        fn all_determined(state: &State, originals: usize) -> bool {
            let but_the_last = all(originals) >> 1;
            determined(&state.sums(), originals) & but_the_last == but_the_last
        }
    }
    ThirtyTwo {
        fn all_determined(state: &State, originals: usize) -> bool {
            let low: Vec<Sum> = state.sums().iter().map(|sum| sum & 0xffff_ffff).collect();
            let originals = originals.min(32);
            determined(&low, originals) == all(originals)
        }
        fn amend(request: &ListingRequest, answer: &mut ListingAnswer) {
            if !Correct::sizes_fit(request.n, request.m) || request.originals() <= 32 {
                *answer = listing_answer_by::<Correct>(request);
            }
        }
    }
}
