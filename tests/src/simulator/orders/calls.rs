//! The two calls: a request in, an answer out.

use super::request::{OrderAnswer, OrderRequest, Question};
use super::rules::OrderRules;
use crate::simulator::rules::Correct;

/// What a mover must answer.
pub fn order_answer(request: &OrderRequest) -> OrderAnswer {
    order_answer_by::<Correct>(request)
}

/// What a mover with these rules answers.
pub fn order_answer_by<R: OrderRules>(request: &OrderRequest) -> OrderAnswer {
    let mut answer = OrderAnswer {
        returned: 0,
        y: 0,
        page: 0,
        order: request.order.clone(),
    };
    let mut numbers = R::looked_for(request.question).iter();
    match numbers.find(|&&number| applies::<R>(request, number)) {
        Some(&number) => answer.returned = number,
        None => {
            let pages = pages::<R>(request);
            let n = request.n as usize;
            let (y, page, order) = match request.question {
                Question::Least => {
                    let (y, page) = least::<R>(&pages, &request.order, n);
                    (y, page, request.order.clone())
                }
                Question::Best => best::<R>(&pages, n),
            };
            (answer.y, answer.page) = (y as u32, page as u32);
            // A mover may take a part that is too long.
            for (to, from) in answer.order.iter_mut().zip(order) {
                *to = from;
            }
        }
    }
    R::amend(request, &mut answer);
    answer
}

fn applies<R: OrderRules>(request: &OrderRequest, number: u32) -> bool {
    match number {
        1 => !R::sizes_fit(request.n, request.m),
        16 => !R::blocks_fit(request.question, request.n),
        2 => !R::lengths_fit(request),
        3 => !R::list_fits(&request.entries()),
        _ => !R::order_fits(&request.order, request.n),
    }
}

/// A page that goes somewhere: its number, and the blocks it goes from and to.
struct Page {
    number: usize,
    from: usize,
    to: usize,
}

fn pages<R: OrderRules>(request: &OrderRequest) -> Vec<Page> {
    let block = |number: usize| number / request.m as usize + 1;
    let entries = request.entries().into_iter().enumerate();
    let kept = entries.filter(|&(_, entry)| !R::is_ignored(entry));
    let page = |(number, entry): (usize, usize)| Page {
        number,
        from: block(number),
        to: block(entry),
    };
    kept.map(page).collect()
}

/// The least y that no page forbids, and the page that forbids the one below.
fn least<R: OrderRules>(pages: &[Page], order: &[u8], n: usize) -> (usize, usize) {
    // The place of each block, from 1; one that is not named has place 0.
    let mut places = vec![0; 256];
    for (index, &block) in order.iter().enumerate() {
        places[block as usize] = index + 1;
    }
    let place = |block: usize| places.get(block).copied().unwrap_or(0);
    let forbidding = |y: usize| -> Vec<usize> {
        let stands = |page: &&Page| {
            let (j, i) = (place(page.from), place(page.to));
            (y + 1..=n - 2).contains(&i) && R::forbids(j, i)
        };
        pages
            .iter()
            .filter(stands)
            .map(|page| page.number)
            .collect()
    };
    let most = R::most(n);
    let y = (0..most)
        .find(|&y| forbidding(y).is_empty())
        .unwrap_or(most);
    (y, R::page_for(forbidding, y))
}

/// The first order of those with the least y.
fn best<R: OrderRules>(pages: &[Page], n: usize) -> (usize, usize, Vec<u8>) {
    let mut found: Option<(usize, usize, Vec<u8>)> = None;
    for order in R::orders(n) {
        let (y, page) = least::<R>(pages, &order, n);
        if found
            .as_ref()
            .is_none_or(|(best, _, _)| R::is_better(y, *best))
        {
            found = Some((y, page, order));
        }
    }
    found.unwrap_or_default()
}
