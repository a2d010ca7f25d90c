//! A listing taken apart: what each line says, if it has the form.

use super::rules::ListingRules;

#[derive(Clone, Debug, PartialEq)]
pub enum Line {
    Write {
        block: usize,
        page: usize,
        originals: Vec<usize>,
    },
    Erase {
        block: usize,
    },
    End {
        writes: u64,
        erases: u64,
    },
}

/// What a line is held against.
pub struct Sizes {
    pub blocks: usize,
    pub pages: usize,
    pub originals: usize,
}

/// The lines of a text, each with its line feed; the last may lack it.
pub fn lines(text: &[u8]) -> impl Iterator<Item = &[u8]> {
    text.split_inclusive(|&byte| byte == b'\n')
}

/// A line of step number `step`, or the end line.
pub fn line_of<R: ListingRules>(line: &[u8], step: usize, sizes: &Sizes) -> Option<Line> {
    let words = R::words(R::content(line)?);
    let number = |word: &[u8]| R::number(word);
    let [first, rest @ ..] = &words[..] else {
        return None;
    };
    if *first == b"end" {
        let [writes, erases] = rest else {
            return None;
        };
        return Some(Line::End {
            writes: number(writes)?,
            erases: number(erases)?,
        });
    }
    if !R::step_fits(number(first)?, step) {
        return None;
    }
    match rest {
        [b"E", block] => Some(Line::Erase {
            block: R::block(number(block)?, sizes)?,
        }),
        [b"W", block, page, originals @ ..] => Some(Line::Write {
            block: R::block(number(block)?, sizes)?,
            page: R::page(number(page)?, sizes)?,
            originals: originals_of::<R>(originals, sizes)?,
        }),
        _ => None,
    }
}

/// The number, if it is below the limit.
pub fn below(number: u64, limit: usize) -> Option<usize> {
    let number = usize::try_from(number).ok()?;
    (number < limit).then_some(number)
}

/// At least one, rising, each of an original.
fn originals_of<R: ListingRules>(words: &[&[u8]], sizes: &Sizes) -> Option<Vec<usize>> {
    let number = |word: &&[u8]| R::original(R::number(word)?, sizes);
    let originals: Vec<usize> = words.iter().map(number).collect::<Option<_>>()?;
    let rising = originals.windows(2).all(|two| R::rises(two[0], two[1]));
    (rising && R::enough(originals.len())).then_some(originals)
}
