//! Faults in the least y, its page, and the best order.

use super::{but_for, fault, OrderFault};
use crate::simulator::orders::calls::order_answer;
use crate::simulator::orders::request::{OrderAnswer, OrderRequest, Question};
use crate::simulator::orders::rules::OrderRules;
use crate::simulator::rules::Correct;

pub fn faults() -> Vec<OrderFault> {
    vec![
        fault::<NextForbids>("orders: a page of the next block forbids"),
        fault::<ThirdForbids>("orders: a page of the block after next does not forbid"),
        fault::<OtherWay>("orders: pages that go on forbid, not those that go back"),
        fault::<ToTheLast>("orders: y goes up to n - 1"),
        fault::<ToThree>("orders: y goes up to n - 3"),
        fault::<HighestPage>("orders: the highest page is told"),
        fault::<PageOfY>("orders: a page that forbids 0 is told"),
        fault::<PageAtZero>("orders: page 0 is told as 65535 where y is 0"),
        fault::<PageByOrder>("orders: pages are numbered by the order"),
        fault::<DropsCounted>("orders: a dropped page goes to the last block"),
        fault::<DropsPaired>("orders: dropped pages are paired with places"),
        fault::<LastOrder>("orders: the last order of the dictionary is found"),
        fault::<FromTheEnd>("orders: the orders are tried from the last on"),
        fault::<OwnOrder>("orders: the search leaves the order lent"),
        fault::<OneMore>("orders: y is one too high"),
        fault::<FirstBlockStays>("orders: only orders that begin with block 1 are tried"),
        fault::<NoPage>("orders: the search tells no page"),
    ]
}

but_for! {
    NextForbids {
        fn forbids(j: usize, i: usize) -> bool {
            j > i
        }
    }
    ThirdForbids {
        fn forbids(j: usize, i: usize) -> bool {
            j >= i + 3
        }
    }
    OtherWay {
        fn forbids(j: usize, i: usize) -> bool {
            i >= j + 2
        }
        fn told(pages: &[usize]) -> usize {
            pages.first().copied().unwrap_or(0)
        }
    }
    ToTheLast {
        fn amend(request: &OrderRequest, answer: &mut OrderAnswer) {
            if answer.returned == 0 && answer.y == request.n - 2 {
                answer.y += 1;
            }
        }
    }
    ToThree {
        fn most(n: usize) -> usize {
            n - 3
        }
    }
    HighestPage {
        fn told(pages: &[usize]) -> usize {
            pages[pages.len() - 1]
        }
    }
    PageOfY {
        fn page_for(forbidding: impl Fn(usize) -> Vec<usize>, y: usize) -> usize {
            match y {
                0 => 0,
                _ => forbidding(0)[0],
            }
        }
    }
    PageAtZero {
        fn amend(_request: &OrderRequest, answer: &mut OrderAnswer) {
            if answer.returned == 0 && answer.y == 0 {
                answer.page = 65535;
            }
        }
    }
    PageByOrder {
        fn amend(request: &OrderRequest, answer: &mut OrderAnswer) {
            if answer.returned == 0 && answer.y > 0 {
                let block = (answer.page / request.m + 1) as u8;
                let place = answer.order.iter().position(|&named| named == block);
                let place = place.unwrap_or(0) as u32;
                answer.page = place * request.m + answer.page % request.m;
            }
        }
    }
    DropsCounted {
        fn amend(request: &OrderRequest, answer: &mut OrderAnswer) {
            if answer.returned == 0 {
                let mut kept = request.clone();
                let last = (request.list.len() / 2 - 1) as u16;
                for entry in kept.list.chunks_exact_mut(2).filter(|entry| **entry == [255; 2]) {
                    entry.copy_from_slice(&last.to_le_bytes());
                }
                let again = order_answer(&kept);
                if again.returned == 0 {
                    *answer = again;
                }
            }
        }
    }
    DropsPaired {
        fn amend(request: &OrderRequest, answer: &mut OrderAnswer) {
            if answer.returned == 0 {
                let entries = request.entries();
                let mut free = (0..entries.len()).filter(|place| !entries.contains(place));
                let mut paired = request.clone();
                for entry in paired.list.chunks_exact_mut(2).filter(|entry| **entry == [255; 2]) {
                    let place = free.next().unwrap_or(0) as u16;
                    entry.copy_from_slice(&place.to_le_bytes());
                }
                *answer = order_answer(&paired);
            }
        }
    }
    LastOrder {
        fn is_better(y: usize, best: usize) -> bool {
            y <= best
        }
    }
    FromTheEnd {
        fn orders(n: usize) -> Vec<Vec<u8>> {
            let mut orders = Correct::orders(n);
            orders.reverse();
            orders
        }
    }
    OwnOrder {
        fn amend(request: &OrderRequest, answer: &mut OrderAnswer) {
            answer.order = request.order.clone();
        }
    }
    OneMore {
        fn amend(request: &OrderRequest, answer: &mut OrderAnswer) {
            if answer.returned == 0 && answer.y + 2 < request.n {
                answer.y += 1;
            }
        }
    }
    FirstBlockStays {
        fn orders(n: usize) -> Vec<Vec<u8>> {
            let mut orders = Correct::orders(n);
            orders.retain(|order| order[0] == 1);
            orders
        }
    }
    NoPage {
        fn amend(request: &OrderRequest, answer: &mut OrderAnswer) {
            if request.question == Question::Best {
                answer.page = 0;
            }
        }
    }
}
