//! The points of the listing rules where a checker can easily differ.

use super::lines::{below, Line, Sizes};
use super::request::{ListingAnswer, ListingRequest};
use super::state::{all, determined, State};
use crate::simulator::rules::Correct;

pub trait ListingRules {
    fn sizes_fit(n: u32, m: u32) -> bool {
        let within = (1..=64).contains(&n) && (1..=64).contains(&m);
        within && n * m <= 64
    }

    fn length_fits(given: usize, originals: usize) -> bool {
        given == 2 * originals
    }

    /// Each entry names a page that no other names; none is dropped.
    fn list_fits(entries: &[usize]) -> bool {
        let mut sorted = entries.to_vec();
        sorted.sort();
        sorted.into_iter().eq(0..entries.len())
    }

    /// What stands before the line feed, which must be there.
    fn content(line: &[u8]) -> Option<&[u8]> {
        line.strip_suffix(b"\n")
    }

    /// Words are one space apart; a space more makes an empty word.
    fn words(content: &[u8]) -> Vec<&[u8]> {
        content.split(|&byte| byte == b' ').collect()
    }

    /// A decimal number without leading zeros; one too big for 64 bits is as
    /// far outside as the biggest.
    fn number(word: &[u8]) -> Option<u64> {
        let digits = !word.is_empty() && word.iter().all(u8::is_ascii_digit);
        if !digits || (word.len() > 1 && word[0] == b'0') {
            return None;
        }
        let value = |total: u64, &digit: &u8| {
            let digit = u64::from(digit - b'0');
            total.saturating_mul(10).saturating_add(digit)
        };
        Some(word.iter().fold(0, value))
    }

    fn step_fits(given: u64, due: usize) -> bool {
        given == due as u64
    }

    /// The block of this number, if there is one.
    fn block(number: u64, sizes: &Sizes) -> Option<usize> {
        below(number, sizes.blocks)
    }

    fn page(number: u64, sizes: &Sizes) -> Option<usize> {
        below(number, sizes.pages)
    }

    fn original(number: u64, sizes: &Sizes) -> Option<usize> {
        below(number, sizes.originals)
    }

    fn rises(before: usize, next: usize) -> bool {
        before < next
    }

    /// Are so many originals a sum?
    fn enough(count: usize) -> bool {
        count > 0
    }

    /// Is a line after the end line a fault?
    fn ends() -> bool {
        true
    }

    /// May the page be written? It is blank, and above those written in its
    /// block since the last erase.
    fn may_write(state: &State, block: usize, page: usize) -> bool {
        let blank = state.pages[block][page].is_none();
        blank && state.written[block].is_none_or(|highest| page > highest)
    }

    /// The highest page that counts as written in a block after its erase.
    fn written_after_erase(_before: Option<usize>) -> Option<usize> {
        None
    }

    /// Can every original be had from the pages written?
    fn all_determined(state: &State, originals: usize) -> bool {
        determined(&state.sums(), originals) == all(originals)
    }

    /// The same with the page or the block of this line taken as lost.
    fn survives(before: &State, line: &Line, originals: usize) -> bool {
        let mut lost = before.clone();
        match line {
            Line::Write { block, page, .. } => lost.pages[*block][*page] = None,
            Line::Erase { block } => lost.pages[*block].fill(None),
            Line::End { .. } => return true,
        }
        Self::all_determined(&lost, originals)
    }

    fn counts_true(state: &State, writes: u64, erases: u64) -> bool {
        (writes, erases) == (state.writes, state.erases)
    }

    /// The last state: the spare is blank, and each original lies, by itself,
    /// where the list sends it.
    fn is_requested(state: &State, entries: &[usize], pages: usize) -> bool {
        let spare_blank = state.pages[0].iter().all(Option::is_none);
        let mut sent = entries.iter().enumerate();
        let at = |number: usize| state.pages[number / pages + 1][number % pages];
        spare_blank && sent.all(|(k, &number)| at(number) == Some(1 << k))
    }

    /// Is a listing without an end line accepted, if nothing else is wrong?
    fn endless_accepted() -> bool {
        false
    }

    /// The number of a line, the first being 0 here.
    fn line_number(index: usize) -> u32 {
        index as u32 + 1
    }

    /// The last word on an answer.
    fn amend(_request: &ListingRequest, _answer: &mut ListingAnswer) {}
}

impl ListingRules for Correct {}
