//! Block orders: by hand, and by another way to the same numbers.

use super::papers::{FOURTEEN, TWENTY_ONE};
use super::tally::{ensure, same, Tally};
use crate::random::Random;
use crate::simulator::orders::calls::order_answer;
use crate::simulator::orders::request::{OrderRequest, Question};

type Outcome = Result<(), String>;

const X: u16 = u16::MAX;

pub fn check(tally: &mut Tally, random: &mut Random) {
    for (name, moves) in [("14", &FOURTEEN[..]), ("21", &TWENTY_ONE[..])] {
        let list: Vec<u16> = moves.iter().map(|block| block - 1).collect();
        let order: Vec<u8> = (1..=list.len() as u8).collect();
        tally.check(
            &format!("y of the {name} blocks"),
            least(1, &list, &order, (8, 13)),
        );
    }
    // Page 2 goes from the third block to the first.
    tally.check("y of 1 2 0", least(1, &[1, 2, 0], &[1, 2, 3], (1, 2)));
    tally.check(
        "y of 1 2 0, turned",
        least(1, &[1, 2, 0], &[3, 2, 1], (0, 0)),
    );
    tally.check("y of 1 2 X", least(1, &[1, 2, X], &[1, 2, 3], (0, 0)));
    tally.check("page 0 is told", least(1, &[2, 1, 0], &[2, 3, 1], (0, 0)));
    tally.check("page 0 is told", least(1, &[2, 1, 0], &[3, 2, 1], (1, 0)));
    tally.check(
        "two pages forbid",
        least(2, &[4, 5, 2, 3, 1, 0], &[1, 2, 3], (1, 4)),
    );
    tally.check("the best of 1 2 0", best(1, &[1, 2, 0], &[1, 3, 2], (0, 0)));
    tally.check(
        "the best of all kept",
        best(1, &[0, 1, 2, 3], &[1, 2, 3, 4], (0, 0)),
    );
    tally.check("the order lent is not looked at", order_free());
    for round in 0..600 {
        let n = random.between(3, 12);
        let outcome = another_way(n, 1 + round % 4, random);
        tally.check(&format!("least y of {n} blocks"), outcome);
    }
    for n in [3, 4, 5, 6] {
        let outcome = (0..20).try_for_each(|_| every_order(n, random));
        tally.check(&format!("best order of {n} blocks"), outcome);
    }
}

fn asked(
    question: Question,
    m: usize,
    list: &[u16],
    order: &[u8],
) -> Result<(u32, u32, Vec<u8>), String> {
    let n = list.len() / m;
    let given = order_answer(&OrderRequest::new(question, n, m, list, order));
    same("the number", given.returned, 0)?;
    Ok((given.y, given.page, given.order))
}

fn least(m: usize, list: &[u16], order: &[u8], due: (u32, u32)) -> Outcome {
    let (y, page, after) = asked(Question::Least, m, list, order)?;
    same("y and the page", (y, page), due)?;
    same("the order", &after[..], order)
}

fn best(m: usize, list: &[u16], order: &[u8], due: (u32, u32)) -> Outcome {
    let lent = vec![0; order.len()];
    let (y, page, found) = asked(Question::Best, m, list, &lent)?;
    same("the order", &found[..], order)?;
    same("y and the page", (y, page), due)
}

fn order_free() -> Outcome {
    let list = [1, 2, 0];
    let first = asked(Question::Best, 1, &list, &[0, 0, 0])?;
    same(
        "the answer",
        asked(Question::Best, 1, &list, &[9, 9, 1])?,
        first,
    )
}

/// The highest place that a page comes to from two places on or more; of the pages
/// that come there the lowest.
fn highest(m: usize, list: &[u16], order: &[u8]) -> (u32, u32) {
    let place = |number: usize| {
        let block = (number / m + 1) as u8;
        order.iter().position(|&named| named == block).unwrap_or(0) as i64 + 1
    };
    let mut found = (0, 0);
    for (k, &entry) in list.iter().enumerate().filter(|(_, &entry)| entry != X) {
        let (j, i) = (place(k), place(entry as usize));
        if j - i > 1 && i > i64::from(found.0) {
            found = (i as u32, k as u32);
        }
    }
    found
}

fn any_list(n: usize, m: usize, random: &mut Random) -> Vec<u16> {
    let mut list = random.permutation(n * m);
    let kept = random.between(1, 6);
    for entry in &mut list {
        if !random.one_in(kept) {
            *entry = X;
        }
    }
    list
}

fn another_way(n: usize, m: usize, random: &mut Random) -> Outcome {
    let list = any_list(n, m, random);
    let order: Vec<u8> = random
        .permutation(n)
        .iter()
        .map(|&index| index as u8 + 1)
        .collect();
    let due = highest(m, &list, &order);
    least(m, &list, &order, due).map_err(|why| format!("list {list:?}, order {order:?}: {why}"))
}

/// The order found has the lowest y of all, and none before it has.
fn every_order(n: usize, random: &mut Random) -> Outcome {
    let m = random.between(1, 2);
    let list = any_list(n, m, random);
    let lent = vec![0; n];
    let (y, page, found) = asked(Question::Best, m, &list, &lent)?;
    let mut order: Vec<u8> = (1..=n as u8).collect();
    same("y and the page", highest(m, &list, &found), (y, page))?;
    loop {
        let other = highest(m, &list, &order).0;
        let before = order < found;
        ensure(other > y || (other == y && !before), || {
            format!("list {list:?}: {order:?} has {other}, {found:?} has {y}")
        })?;
        if !next_order(&mut order) {
            return Ok(());
        }
    }
}

/// The next one in the dictionary.
fn next_order(order: &mut [u8]) -> bool {
    let rises = |at: &usize| order[*at] < order[at + 1];
    let Some(at) = (0..order.len() - 1).rev().find(rises) else {
        return false;
    };
    let above = (at + 1..order.len())
        .rev()
        .find(|&other| order[other] > order[at]);
    order.swap(at, above.unwrap_or(at + 1));
    order[at + 1..].reverse();
    true
}
