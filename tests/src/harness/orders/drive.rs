//! One question about orders through the C interface.

use crate::harness::interface::OrderCalls;
use crate::harness::lent::{Lent, Outs};
use crate::simulator::orders::request::{OrderAnswer, OrderRequest, Question};

/// The answer, or what the call damaged.
pub fn drive(calls: &OrderCalls, request: &OrderRequest) -> Result<OrderAnswer, String> {
    let mut list = Lent::new(&request.list);
    let mut order = Lent::new(&request.order);
    let mut outs = Outs::junk();
    let [y, page, ..] = outs.pointers();
    let (n, m) = (request.n, request.m);
    let (list_len, order_len) = (list.length(), order.length());
    let (listed, ordered) = (list.pointer(), order.pointer());
    // Both parts are live buffers of the lengths given.
    let returned = unsafe {
        match request.question {
            Question::Least => (calls.least)(n, m, listed, list_len, ordered, order_len, y, page),
            Question::Best => (calls.best)(n, m, listed, list_len, ordered, order_len, y, page),
        }
    };
    let [y, page, ..] = outs.take()?;
    if list.take("list")? != request.list {
        return Err("the list was changed".into());
    }
    Ok(OrderAnswer {
        returned,
        y,
        page,
        order: order.take("order")?,
    })
}
