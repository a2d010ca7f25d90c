//! The simulator's answers about orders behind the C interface, and faults there.

use super::OrderFault;
use crate::faults::exports::Raw;
use crate::harness::interface::OrderCalls;
use crate::simulator::orders::calls::order_answer_by;
use crate::simulator::orders::request::{OrderRequest, Question};
use crate::simulator::orders::rules::OrderRules;
use crate::simulator::rules::Correct;
use std::slice;

/// What a mover does with lent memory and numbers beside the rules.
pub trait OrderManners {
    fn sets_numbers(_returned: u32) -> bool {
        true
    }

    /// # Safety
    /// The parts must lie inside live buffers, with room on both sides.
    unsafe fn harm(_list: Raw, _order: Raw) {}
}

pub struct OrderClean;

impl OrderManners for OrderClean {}

pub fn order_calls<R: OrderRules, M: OrderManners>() -> OrderCalls {
    OrderCalls {
        least: least::<R, M>,
        best: best::<R, M>,
    }
}

pub fn faults() -> Vec<OrderFault> {
    vec![
        rude::<TouchesList>("orders: the list is changed"),
        rude::<PastOrder>("orders: a byte behind the order is written"),
        rude::<UnsetAtRefusal>("orders: a refusal leaves the numbers unset"),
    ]
}

fn rude<M: OrderManners>(name: &'static str) -> OrderFault {
    let calls = order_calls::<Correct, M>();
    OrderFault { name, calls }
}

struct TouchesList;

impl OrderManners for TouchesList {
    unsafe fn harm(list: Raw, _order: Raw) {
        if list.len > 0 {
            *list.start ^= 1;
        }
    }
}

struct PastOrder;

impl OrderManners for PastOrder {
    unsafe fn harm(_list: Raw, order: Raw) {
        *order.start.add(order.len) = 0;
    }
}

struct UnsetAtRefusal;

impl OrderManners for UnsetAtRefusal {
    fn sets_numbers(returned: u32) -> bool {
        returned == 0
    }
}

fn raw(start: *const u8, len: u64) -> Raw {
    Raw {
        start: start.cast_mut(),
        len: len as usize,
    }
}

unsafe fn serve<R: OrderRules, M: OrderManners>(
    question: Question,
    [n, m]: [u32; 2],
    [list, order]: [Raw; 2],
    [y, page]: [*mut u32; 2],
) -> u32 {
    let request = OrderRequest {
        question,
        n,
        m,
        list: slice::from_raw_parts(list.start, list.len).to_vec(),
        order: slice::from_raw_parts(order.start, order.len).to_vec(),
    };
    let answer = order_answer_by::<R>(&request);
    order.start.copy_from(answer.order.as_ptr(), order.len);
    M::harm(list, order);
    if M::sets_numbers(answer.returned) {
        (*y, *page) = (answer.y, answer.page);
    }
    answer.returned
}

unsafe extern "C" fn least<R: OrderRules, M: OrderManners>(
    n: u32,
    m: u32,
    list: *const u8,
    list_len: u64,
    order: *const u8,
    order_len: u64,
    y: *mut u32,
    page: *mut u32,
) -> u32 {
    let lent = [raw(list, list_len), raw(order, order_len)];
    serve::<R, M>(Question::Least, [n, m], lent, [y, page])
}

unsafe extern "C" fn best<R: OrderRules, M: OrderManners>(
    n: u32,
    m: u32,
    list: *const u8,
    list_len: u64,
    order: *mut u8,
    order_len: u64,
    y: *mut u32,
    page: *mut u32,
) -> u32 {
    let lent = [raw(list, list_len), raw(order, order_len)];
    serve::<R, M>(Question::Best, [n, m], lent, [y, page])
}
