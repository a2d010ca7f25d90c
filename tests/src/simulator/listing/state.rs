//! What the blocks hold while a listing is followed: of which originals each
//! page is the sum.

use super::lines::Sizes;

/// The originals of a sum; each bit is one of them.
pub type Sum = u64;

#[derive(Clone, Debug, PartialEq)]
pub struct State {
    /// By block and page; a blank page has none.
    pub pages: Vec<Vec<Option<Sum>>>,
    /// The highest page written in each block since its last erase.
    pub written: Vec<Option<usize>>,
    pub writes: u64,
    pub erases: u64,
}

impl State {
    /// At rest: the spare is blank, and each original lies in its place.
    pub fn at_rest(sizes: &Sizes) -> State {
        let mut pages = vec![vec![None; sizes.pages]; sizes.blocks];
        for k in 0..sizes.originals {
            pages[k / sizes.pages + 1][k % sizes.pages] = Some(1 << k);
        }
        State {
            written: vec![None; sizes.blocks],
            pages,
            writes: 0,
            erases: 0,
        }
    }

    pub fn write(&mut self, block: usize, page: usize, sum: Sum) {
        self.pages[block][page] = Some(sum);
        self.written[block] = self.written[block].max(Some(page));
        self.writes += 1;
    }

    pub fn erase(&mut self, block: usize) {
        self.pages[block].fill(None);
        self.written[block] = None;
        self.erases += 1;
    }

    /// The sums of all pages that are written.
    pub fn sums(&self) -> Vec<Sum> {
        self.pages.concat().into_iter().flatten().collect()
    }
}

pub fn sum_of(originals: &[usize]) -> Sum {
    originals.iter().fold(0, |sum, &k| sum ^ 1 << k)
}

/// The originals that these sums determine, as a set: each that is itself a
/// sum of some of them. Rows are added to each other until every original that
/// leads a row is in no other; one that is determined is then alone in its row.
pub fn determined(sums: &[Sum], originals: usize) -> Sum {
    let mut rows = sums.to_vec();
    let mut done = 0;
    for k in 0..originals {
        let Some(at) = (done..rows.len()).find(|&at| rows[at] >> k & 1 == 1) else {
            continue;
        };
        rows.swap(done, at);
        let pivot = rows[done];
        for (at, row) in rows.iter_mut().enumerate() {
            if at != done && *row >> k & 1 == 1 {
                *row ^= pivot;
            }
        }
        done += 1;
    }
    let alone = rows.iter().filter(|row| row.count_ones() == 1);
    alone.fold(0, |set, row| set | row)
}

/// All of them.
pub fn all(originals: usize) -> Sum {
    Sum::MAX >> (64 - originals)
}
