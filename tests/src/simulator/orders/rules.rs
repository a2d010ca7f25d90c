//! The points of the rules for orders where a mover can easily differ.

use super::request::{OrderAnswer, OrderRequest, Question};
use crate::random::all_permutations;
use crate::simulator::dropping::DROPPED;
use crate::simulator::rules::Correct;

pub trait OrderRules {
    fn sizes_fit(n: u32, m: u32) -> bool {
        (1..=64).contains(&n) && (1..=64).contains(&m)
    }

    /// Are there blocks enough, and for the search not too many?
    fn blocks_fit(question: Question, n: u32) -> bool {
        match question {
            Question::Least => n >= 3,
            Question::Best => (3..=7).contains(&n),
        }
    }

    /// For sizes in their ranges.
    fn lengths_fit(request: &OrderRequest) -> bool {
        let (n, m) = (request.n as usize, request.m as usize);
        request.list.len() == 2 * n * m && request.order.len() == n
    }

    /// Is a page with this entry thrown away, and nothing to the order?
    fn is_ignored(entry: usize) -> bool {
        entry == DROPPED
    }

    /// Each entry names a page that no other names; a dropped page names none.
    fn list_fits(entries: &[usize]) -> bool {
        let mut named = entries.to_vec();
        named.retain(|&entry| entry != DROPPED);
        named.sort();
        let last_fits = named.last().is_none_or(|&last| last < entries.len());
        last_fits && named.windows(2).all(|pair| pair[0] != pair[1])
    }

    /// Each of blocks 1 to n is named once.
    fn order_fits(order: &[u8], n: u32) -> bool {
        (1..=n).all(|block| {
            order
                .iter()
                .filter(|&&named| u32::from(named) == block)
                .count()
                == 1
        })
    }

    /// The numbers that a call looks for, in turn.
    fn looked_for(question: Question) -> &'static [u32] {
        match question {
            Question::Least => &[1, 16, 2, 3, 17],
            Question::Best => &[1, 16, 2, 3],
        }
    }

    /// Does a page from the j-th block that goes to the i-th stand against a y
    /// below i?
    fn forbids(j: usize, i: usize) -> bool {
        j >= i + 2
    }

    /// The highest y.
    fn most(n: usize) -> usize {
        n - 2
    }

    /// Of the pages that forbid y - 1, ascending, the one that is told.
    fn told(pages: &[usize]) -> usize {
        pages[0]
    }

    /// The page of which the number is told for y.
    fn page_for(forbidding: impl Fn(usize) -> Vec<usize>, y: usize) -> usize {
        match y {
            0 => 0,
            _ => Self::told(&forbidding(y - 1)),
        }
    }

    /// All orders in turn.
    fn orders(n: usize) -> Vec<Vec<u8>> {
        let block = |&index: &u16| index as u8 + 1;
        let orders = all_permutations(n).into_iter();
        orders
            .map(|order| order.iter().map(block).collect())
            .collect()
    }

    /// Does an order with this y take the place of the best so far?
    fn is_better(y: usize, best: usize) -> bool {
        y < best
    }

    /// The last word on an answer.
    fn amend(_request: &OrderRequest, _answer: &mut OrderAnswer) {}
}

impl OrderRules for Correct {}
