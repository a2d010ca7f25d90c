//! Faults in what is refused, and in which order.

use super::{but_for, fault, OrderFault};
use crate::simulator::orders::request::{OrderAnswer, OrderRequest, Question};
use crate::simulator::orders::rules::OrderRules;
use crate::simulator::rules::Correct;

pub fn faults() -> Vec<OrderFault> {
    vec![
        fault::<BlocksAfterLengths>("orders: 16 is looked for after 2"),
        fault::<BlocksFirst>("orders: 16 is looked for before 1"),
        fault::<OrderBeforeList>("orders: 17 is looked for before 3"),
        fault::<ListBeforeLengths>("orders: 3 is looked for before 2"),
        fault::<NoOrder>("orders: the order is not looked at"),
        fault::<SearchLooks>("orders: the search looks at the order lent"),
        fault::<TwoBlocks>("orders: n = 2 is taken"),
        fault::<NotThree>("orders: n = 3 is refused"),
        fault::<EightSearched>("orders: n = 8 is searched"),
        fault::<NotSeven>("orders: n = 7 is not searched"),
        fault::<SevenForAll>("orders: n above 7 is refused for a given order"),
        fault::<WideBlocks>("orders: n = 65 is taken for 16"),
        fault::<Twice>("orders: an order may name a block twice"),
        fault::<Zero>("orders: an order may name block 0"),
        fault::<LongOrder>("orders: an order one byte too long is taken"),
        fault::<LongList>("orders: a list one byte too long is taken"),
        fault::<DropsRefused>("orders: an entry of 65535 is refused"),
        fault::<DropsOnce>("orders: 65535 counts as met twice"),
        fault::<EntriesTwice>("orders: an entry met twice is taken"),
        fault::<ClearsRefused>("orders: a refused search clears the order"),
    ]
}

but_for! {
    BlocksAfterLengths {
        fn looked_for(question: Question) -> &'static [u32] {
            match question {
                Question::Least => &[1, 2, 16, 3, 17],
                Question::Best => &[1, 2, 16, 3],
            }
        }
    }
    BlocksFirst {
        fn looked_for(question: Question) -> &'static [u32] {
            match question {
                Question::Least => &[16, 1, 2, 3, 17],
                Question::Best => &[16, 1, 2, 3],
            }
        }
    }
    OrderBeforeList {
        fn looked_for(question: Question) -> &'static [u32] {
            match question {
                Question::Least => &[1, 16, 2, 17, 3],
                Question::Best => &[1, 16, 2, 3],
            }
        }
    }
    ListBeforeLengths {
        fn looked_for(question: Question) -> &'static [u32] {
            match question {
                Question::Least => &[1, 16, 3, 2, 17],
                Question::Best => &[1, 16, 3, 2],
            }
        }
    }
    NoOrder {
        fn looked_for(_question: Question) -> &'static [u32] {
            &[1, 16, 2, 3]
        }
    }
    SearchLooks {
        fn looked_for(_question: Question) -> &'static [u32] {
            &[1, 16, 2, 3, 17]
        }
    }
    TwoBlocks {
        fn blocks_fit(question: Question, n: u32) -> bool {
            n == 2 || Correct::blocks_fit(question, n)
        }
    }
    NotThree {
        fn blocks_fit(question: Question, n: u32) -> bool {
            n != 3 && Correct::blocks_fit(question, n)
        }
    }
    // Nothing is searched then.
    EightSearched {
        fn amend(request: &OrderRequest, answer: &mut OrderAnswer) {
            if answer.returned == 16 && request.n == 8 && Correct::lengths_fit(request) {
                answer.returned = 0;
            }
        }
    }
    NotSeven {
        fn blocks_fit(question: Question, n: u32) -> bool {
            Correct::blocks_fit(question, n) && !(question == Question::Best && n == 7)
        }
    }
    SevenForAll {
        fn blocks_fit(_question: Question, n: u32) -> bool {
            Correct::blocks_fit(Question::Best, n)
        }
    }
    WideBlocks {
        fn amend(request: &OrderRequest, answer: &mut OrderAnswer) {
            if answer.returned == 1 && request.n == 65 && request.m == 1 {
                answer.returned = 16;
            }
        }
    }
    Twice {
        fn order_fits(order: &[u8], n: u32) -> bool {
            order.iter().all(|&block| block > 0 && u32::from(block) <= n)
        }
    }
    Zero {
        fn order_fits(order: &[u8], n: u32) -> bool {
            let mut named = order.to_vec();
            named.sort();
            named.dedup();
            named.len() == n as usize && named.iter().all(|&block| u32::from(block) <= n)
        }
    }
    LongOrder {
        fn lengths_fit(request: &OrderRequest) -> bool {
            let mut shorter = request.clone();
            shorter.order.truncate(request.n as usize);
            Correct::lengths_fit(&shorter)
        }
    }
    LongList {
        fn lengths_fit(request: &OrderRequest) -> bool {
            let mut even = request.clone();
            even.list.truncate(request.list.len() / 2 * 2);
            Correct::lengths_fit(&even)
        }
    }
    DropsRefused {
        fn list_fits(entries: &[usize]) -> bool {
            !entries.contains(&65535) && Correct::list_fits(entries)
        }
    }
    DropsOnce {
        fn list_fits(entries: &[usize]) -> bool {
            let drops = entries.iter().filter(|&&entry| entry == 65535).count();
            drops < 2 && Correct::list_fits(entries)
        }
    }
    EntriesTwice {
        fn list_fits(entries: &[usize]) -> bool {
            let fits = |&entry: &usize| entry < entries.len() || entry == 65535;
            entries.iter().all(fits)
        }
    }
    ClearsRefused {
        fn amend(request: &OrderRequest, answer: &mut OrderAnswer) {
            if answer.returned == 3 && request.question == Question::Best {
                answer.order.fill(0);
            }
        }
    }
}
