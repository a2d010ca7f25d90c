//! The step program: a move as text in, its steps as text out.

use super::calls::{answer, move_of};
use super::flash::Flash;
use super::listing::method::{by_method, listing};
use super::request::{Call, Parts, Request};
use super::rules::Correct;
use super::running::take_step;
use super::sizes::Sizes;
use super::steps::{all_steps, Step};
use std::fmt::Write;

/// Longer input is not taken; the program reads one byte more to see it.
pub const INPUT_LIMIT: usize = 4096;

pub fn step_program(input: &[u8]) -> String {
    let line = match read_move(input) {
        Ok((sizes, list, originals)) => steps_text(sizes, list, &originals),
        Err(line) => Err(line),
    };
    line.unwrap_or_else(|line| format!("{line}\n"))
}

/// The second form: what is written is named by its originals.
pub fn step_program_by_originals(input: &[u8]) -> String {
    let line = match read_move(input) {
        Ok((sizes, list, _)) => originals_text(sizes, &list),
        Err(line) => Err(line),
    };
    line.unwrap_or_else(|line| format!("{line}\n"))
}

/// A list that drops a page is bad here.
fn originals_text(sizes: Sizes, list: &[u32]) -> Result<String, &'static str> {
    let mut sorted = list.to_vec();
    sorted.sort();
    if !(0..sizes.originals() as u32).eq(sorted) {
        return Err("refused 3");
    }
    let entries: Vec<u16> = list.iter().map(|&entry| entry as u16).collect();
    let steps = by_method(sizes.n as usize, sizes.m as usize, &entries);
    Ok(listing(&steps))
}

type MoveRead = (Sizes, Vec<u32>, Vec<u8>);

fn read_move(input: &[u8]) -> Result<MoveRead, &'static str> {
    let longer = input.len() > INPUT_LIMIT;
    let seen = &input[..input.len().min(INPUT_LIMIT)];
    let words: Vec<&[u8]> = seen
        .split(|&byte| is_separator(byte))
        .filter(|word| !word.is_empty())
        .collect();
    // A word that the limit may have cut in two is not complete.
    let cut_word = longer && !seen.ends_with(b" ") && !seen.ends_with(b"\n");
    let complete = words.len() - cut_word as usize;
    let sizes = read_sizes(&words[..complete]).ok_or("unreadable")?;
    if !within_limits(&sizes) {
        return Err("refused 1");
    }
    if longer {
        return Err("unreadable");
    }
    let (list, originals) = read_rest(&sizes, &words[4..]).ok_or("unreadable")?;
    Ok((sizes, list, originals))
}

fn is_separator(byte: u8) -> bool {
    byte == b' ' || byte == b'\n'
}

/// A decimal number of 1 to 5 digits.
fn number(word: &[u8]) -> Option<u32> {
    let digits = word.len() <= 5 && word.iter().all(u8::is_ascii_digit);
    let text = std::str::from_utf8(word).ok().filter(|_| digits)?;
    text.parse().ok()
}

fn read_sizes(words: &[&[u8]]) -> Option<Sizes> {
    let numbers: Option<Vec<u32>> = words.iter().take(4).map(|word| number(word)).collect();
    match numbers?[..] {
        [n, m, page_bytes, s] => Some(Sizes {
            n,
            m,
            page_bytes,
            s,
        }),
        _ => None,
    }
}

fn within_limits(sizes: &Sizes) -> bool {
    (1..=8).contains(&sizes.n)
        && (1..=8).contains(&sizes.m)
        && (1..=64).contains(&sizes.page_bytes)
        && sizes.s <= 2
}

fn read_rest(sizes: &Sizes, words: &[&[u8]]) -> Option<(Vec<u32>, Vec<u8>)> {
    let numbers: Vec<u32> = words
        .iter()
        .map(|word| number(word))
        .collect::<Option<_>>()?;
    if numbers.len() != sizes.originals() * (1 + sizes.bytes()) {
        return None;
    }
    let (list, bytes) = numbers.split_at(sizes.originals());
    let bytes: Option<Vec<u8>> = bytes.iter().map(|&byte| u8::try_from(byte).ok()).collect();
    Some((list.to_vec(), bytes?))
}

/// The list as the calls take it; an entry too big for 16 bits has no place in
/// it and is bad in any case.
fn list_bytes(list: &[u32]) -> Option<Vec<u8>> {
    let entries: Option<Vec<u16>> = list
        .iter()
        .map(|&entry| u16::try_from(entry).ok())
        .collect();
    Some(entries?.into_iter().flat_map(u16::to_le_bytes).collect())
}

fn steps_text(sizes: Sizes, list: Vec<u32>, originals: &[u8]) -> Result<String, &'static str> {
    let parts = Parts {
        list: list_bytes(&list).ok_or("refused 3")?,
        pins: vec![0; sizes.originals()],
        sets: vec![0; sizes.originals()],
        ..Parts::default()
    };
    let mut request = Request {
        call: Call::Split,
        sizes,
        parts,
        place: 0,
        budget: 0,
        wear_limit: 0,
        original: 0,
        slot: 0,
    };
    let split = answer(&request);
    if split.numbers.returned == 3 {
        return Err("refused 3");
    }
    request.parts = split.parts;
    Ok(moved_text(&request, Flash::at_rest(sizes, originals)))
}

fn moved_text(request: &Request, mut flash: Flash) -> String {
    let moves = move_of::<Correct>(request);
    let (mut writes, mut erases) = (0, 0);
    let mut text = String::new();
    for (place, step) in all_steps(&request.sizes).into_iter().enumerate() {
        let written = take_step::<Correct>(&moves, &mut flash, step);
        write!(text, "{place} ").unwrap();
        match step {
            Step::Erase { block } => {
                erases += 1;
                write!(text, "E {block}").unwrap();
            }
            Step::WriteCoded { block, page } | Step::WriteFinal { block, page } => {
                writes += 1;
                write!(text, "W {block} {page} ").unwrap();
                let bytes = written.map(|page| page.bytes).unwrap_or_default();
                bytes
                    .iter()
                    .for_each(|byte| write!(text, "{byte:02x}").unwrap());
            }
        }
        text.push('\n');
    }
    writeln!(text, "end {writes} {erases}").unwrap();
    text
}
