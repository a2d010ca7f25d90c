//! A list with an order of its blocks, and the answer.

use std::fmt;

#[derive(Clone, Copy, Debug, PartialEq, Eq, PartialOrd, Ord)]
pub enum Question {
    /// The least y of the order given.
    Least,
    /// The best of all orders, which is laid where the order is lent.
    Best,
}

pub const QUESTIONS: [Question; 2] = [Question::Least, Question::Best];

#[derive(Clone, Debug, PartialEq)]
pub struct OrderRequest {
    pub question: Question,
    pub n: u32,
    pub m: u32,
    /// As lent, two bytes an entry.
    pub list: Vec<u8>,
    /// The block in each place, from the first on.
    pub order: Vec<u8>,
}

/// The numbers returned, and what the order is after the call. The page is one
/// that forbids y - 1, and 0 where y is 0.
#[derive(Clone, Debug, PartialEq)]
pub struct OrderAnswer {
    pub returned: u32,
    pub y: u32,
    pub page: u32,
    pub order: Vec<u8>,
}

impl OrderRequest {
    pub fn new(question: Question, n: usize, m: usize, list: &[u16], order: &[u8]) -> OrderRequest {
        OrderRequest {
            question,
            n: n as u32,
            m: m as u32,
            list: list.iter().flat_map(|entry| entry.to_le_bytes()).collect(),
            order: order.to_vec(),
        }
    }

    pub fn entries(&self) -> Vec<usize> {
        let pairs = self.list.chunks_exact(2);
        pairs
            .map(|pair| pair[0] as usize + 256 * pair[1] as usize)
            .collect()
    }
}

impl fmt::Display for OrderRequest {
    fn fmt(&self, out: &mut fmt::Formatter) -> fmt::Result {
        let (question, n, m) = (self.question, self.n, self.m);
        writeln!(out, "{question:?} for n = {n}, m = {m}")?;
        writeln!(out, "list, {} bytes: {:?}", self.list.len(), self.entries())?;
        write!(out, "order: {:?}", self.order)
    }
}
