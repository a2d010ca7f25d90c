//! The listing of the paper's method, and of one that copies whole blocks.

use crate::simulator::permutation::Move;
use crate::simulator::rules::{Correct, Rules};
use crate::simulator::sizes::Sizes;
use crate::simulator::split::split_by_rule;
use crate::simulator::steps::{all_steps, Step};

/// A step of a listing.
#[derive(Clone, Debug, PartialEq)]
pub enum Entry {
    Write(usize, usize, Vec<usize>),
    Erase(usize),
}

/// The steps as lines, with their numbers, and the end line.
pub fn listing(entries: &[Entry]) -> String {
    let mut text = String::new();
    let mut writes = 0;
    for (step, entry) in entries.iter().enumerate() {
        match entry {
            Entry::Erase(block) => text += &format!("{step} E {block}\n"),
            Entry::Write(block, page, originals) => {
                writes += 1;
                let numbers: Vec<String> = originals.iter().map(usize::to_string).collect();
                text += &format!("{step} W {block} {page} {}\n", numbers.join(" "));
            }
        }
    }
    let erases = entries.len() - writes;
    text + &format!("end {writes} {erases}\n")
}

fn sizes_of(n: usize, m: usize) -> Sizes {
    Sizes {
        n: n as u32,
        m: m as u32,
        page_bytes: 1,
        s: 0,
    }
}

/// The sets of the split call.
pub fn sets_of(n: usize, m: usize, list: &[u16]) -> Vec<usize> {
    let destinations: Vec<usize> = list.iter().map(|&entry| entry as usize).collect();
    split_by_rule::<Correct>(sizes_of(n, m), &destinations)
}

/// The two passes with these sets; the top of a cycle is of its blocks the one
/// that `top` says.
pub fn two_passes(
    n: usize,
    m: usize,
    list: &[u16],
    sets: Vec<usize>,
    top: fn(&[usize]) -> usize,
) -> Vec<Entry> {
    let sizes = sizes_of(n, m);
    let destinations = list.iter().map(|&entry| entry as usize).collect();
    let moves = Move::new(sizes, destinations, vec![false; n * m], sets);
    let coded = |set: usize, i: usize| {
        let mut originals = vec![moves.original_from(set, i)];
        if top(&moves.cycle(set, i)) != i {
            originals.push(moves.original_from(set, moves.pred(set, i)));
        }
        originals.sort();
        originals
    };
    let entry = |step| match step {
        Step::WriteCoded { block, page } => Entry::Write(block, page, coded(page, block + 1)),
        Step::WriteFinal { block, page } => {
            Entry::Write(block, page, vec![moves.original_to(block, page)])
        }
        Step::Erase { block } => Entry::Erase(block),
    };
    all_steps(&sizes).into_iter().map(entry).collect()
}

/// The paper's method.
pub fn by_method(n: usize, m: usize, list: &[u16]) -> Vec<Entry> {
    two_passes(n, m, list, sets_of(n, m, list), Correct::top)
}

/// For a list that sends whole blocks: each cycle of blocks moves on by way of
/// the spare, in plain copies. `to[b]` is where block b + 1 goes, from 0.
pub fn by_copies(m: usize, to: &[u16], list: &[u16]) -> Vec<Entry> {
    let mut entries = vec![];
    let mut moved = vec![false; to.len()];
    let copy = |entries: &mut Vec<Entry>, from: usize, into: usize, placed: bool| {
        let mut pages: Vec<(usize, usize)> = (from * m..(from + 1) * m)
            .map(|k| (if placed { list[k] as usize % m } else { k % m }, k))
            .collect();
        pages.sort();
        entries.extend(
            pages
                .into_iter()
                .map(|(page, k)| Entry::Write(into, page, vec![k])),
        );
    };
    for last in 0..to.len() {
        if std::mem::replace(&mut moved[last], true) {
            continue;
        }
        let inner = (last * m..(last + 1) * m).any(|k| list[k] as usize != k);
        if to[last] as usize == last && !inner {
            continue;
        }
        // The first block waits in the spare; the others follow, each to the
        // block that the one before has left.
        copy(&mut entries, last, 0, false);
        entries.push(Entry::Erase(last + 1));
        let mut free = last;
        while let Some(from) = (0..to.len()).find(|&b| to[b] as usize == free && b != last) {
            copy(&mut entries, from, free + 1, true);
            entries.push(Entry::Erase(from + 1));
            moved[from] = true;
            free = from;
        }
        copy(&mut entries, last, free + 1, true);
        entries.push(Entry::Erase(0));
    }
    entries
}
