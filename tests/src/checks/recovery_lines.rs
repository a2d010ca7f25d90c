//! The four lines by which marks fit, at every block, and marks that do not.

use super::tally::{same, Tally};
use crate::simulator::calls::answer;
use crate::simulator::request::{Call, Parts, Request};
use crate::simulator::sizes::Sizes;
use crate::simulator::wear::WEAR_BYTES;

type Outcome = Result<(), String>;

const N: usize = 3;
const M: usize = 2;

/// The letters of originals, coded pages and moved pages.
struct Letters {
    rest: u8,
    coded: u8,
    moved: u8,
}

pub fn check(tally: &mut Tally) {
    for s in 0..=2 {
        let letter = |later: usize| ((s + later) % 3) as u8;
        let letters = Letters {
            rest: letter(0),
            coded: letter(1),
            moved: letter(2),
        };
        marks_that_fit(tally, s, &letters);
        for marks in marks_that_fit_not(&letters) {
            tally.check(
                &format!("s = {s}, marks {marks:?}"),
                mends(s, &marks, 6, 0, 0),
            );
        }
    }
}

fn marks_that_fit(tally: &mut Tally, s: usize, letters: &Letters) {
    let Letters { rest, coded, moved } = *letters;
    for b in 0..=N {
        let name = format!("s = {s}, block {b} unfinished");
        let forward = row(&[(b, coded), (1, 255), (N - b, rest)]);
        tally.check(&name, any_unfinished(s, forward, b, b * (M + 1)));
        let backward = row(&[(b, coded), (1, 255), (N - b, moved)]);
        tally.check(&name, any_unfinished(s, backward, b, (2 * N - b) * (M + 1)));
    }
    for i in 1..=N {
        let name = format!("s = {s}, no block unfinished, {i} below");
        let forward = row(&[(i, coded), (N + 1 - i, rest)]);
        tally.check(&name, mends(s, &forward, 0, (i - 1) * (M + 1) + M, 0));
        let backward = row(&[(i, coded), (N + 1 - i, moved)]);
        tally.check(&name, mends(s, &backward, 0, (2 * N - i) * (M + 1) + M, 0));
    }
}

fn marks_that_fit_not(letters: &Letters) -> Vec<Vec<u8>> {
    let Letters { rest, coded, moved } = *letters;
    vec![
        row(&[(N + 1, coded)]),
        row(&[(N + 1, rest)]),
        row(&[(N + 1, moved)]),
        row(&[(N + 1, 255)]),
        row(&[(2, rest), (2, coded)]),
        row(&[(2, moved), (2, coded)]),
        row(&[(2, rest), (2, moved)]),
        row(&[(1, coded), (1, rest), (2, moved)]),
        row(&[(1, coded), (1, 255), (1, rest), (1, moved)]),
        row(&[(1, 255), (2, coded), (1, rest)]),
        row(&[(1, coded), (1, 254), (1, 100), (1, rest)]),
        row(&[(1, coded), (1, 3), (1, 255), (1, moved)]),
        row(&[(1, 3), (2, coded), (1, rest)]),
        row(&[(1, 3), (1, 100), (1, 254), (1, rest)]),
        row(&[(1, 255), (1, 255), (2, rest)]),
        row(&[(1, rest), (1, 255), (2, rest)]),
    ]
}

/// Marks of whole blocks: how many blocks have which mark.
fn row(groups: &[(usize, u8)]) -> Vec<u8> {
    groups
        .iter()
        .flat_map(|&(blocks, mark)| vec![mark; blocks * M])
        .collect()
}

/// What the unfinished block holds does not matter.
fn any_unfinished(s: usize, marks: Vec<u8>, block: usize, place: usize) -> Outcome {
    let mut marks = marks;
    for pair in [
        [255, 255],
        [0, 255],
        [255, 1],
        [2, 255],
        [0, 1],
        [1, 2],
        [2, 0],
        [3, 255],
        [0, 254],
        [128, 1],
        [3, 254],
    ] {
        marks[block * M..(block + 1) * M].copy_from_slice(&pair);
        mends(s, &marks, 0, place, 1).map_err(|why| format!("with {pair:?}: {why}"))?;
    }
    Ok(())
}

fn mends(s: usize, marks: &[u8], returned: u32, place: usize, erases: u32) -> Outcome {
    let request = Request {
        call: Call::Mend,
        sizes: Sizes {
            n: N as u32,
            m: M as u32,
            page_bytes: 1,
            s: s as u32,
        },
        parts: Parts {
            store: vec![7; (N + 1) * M],
            marks: marks.to_vec(),
            wear: vec![0; WEAR_BYTES],
            ..Parts::default()
        },
        place: 0,
        budget: 0,
        wear_limit: 0,
        original: 0,
        slot: 0,
    };
    let numbers = answer(&request).numbers;
    let given = (numbers.returned, numbers.place as usize, numbers.erases);
    same("number, place and erases", given, (returned, place, erases))
}
