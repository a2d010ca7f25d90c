//! The points of the rules where a mover can easily differ.
//!
//! `Correct` takes them all as written. A seeded fault overrides one of them,
//! which keeps it a single difference from the simulator.

use super::dropping::{stored, Term, DROPPED};
use super::flash::{add, Flash};
use super::permutation::Move;
use super::recovery::{self, Recovery};
use super::refusals::{order, Refusal};
use super::request::{Answer, Call, Part, Request};
use super::sizes::{Sizes, UNWRITTEN};
use super::split::Partial;
use super::wear::{fresh_pair, Pair};
use std::ops::RangeInclusive;

pub trait Rules {
    fn sizes_fit(sizes: &Sizes) -> bool {
        (1..=64).contains(&sizes.n)
            && (1..=64).contains(&sizes.m)
            && (1..=4096).contains(&sizes.page_bytes)
            && sizes.s <= 2
    }

    fn length_fits(_part: Part, given: usize, due: u128) -> bool {
        given as u128 == due
    }

    /// The refusals a call looks for, in this order.
    fn refusal_order(call: Call) -> &'static [Refusal] {
        order(call)
    }

    /// Does a page with this byte have to stay?
    fn is_pinned(byte: u8) -> bool {
        byte != 0
    }

    /// Is a page with this entry thrown away?
    fn is_dropped(entry: usize) -> bool {
        entry == DROPPED
    }

    /// Each entry names a page that no other names; a dropped page names none.
    fn list_fits(entries: &[usize]) -> bool {
        let mut named = entries.to_vec();
        named.retain(|&entry| !Self::is_dropped(entry));
        named.sort();
        let last_fits = named.last().is_none_or(|&last| last < entries.len());
        last_fits && named.windows(2).all(|pair| pair[0] != pair[1])
    }

    /// Dropped pages and the places left for them, both ascending.
    fn pairs(dropped: Vec<usize>, free: Vec<usize>) -> Vec<(usize, usize)> {
        dropped.into_iter().zip(free).collect()
    }

    /// May the list of this call drop pages?
    fn takes_drops(call: Call) -> bool {
        call != Call::Rebuild
    }

    /// Is the original that read gets in the store, or the slot that is not to be
    /// used?
    fn number_fits(request: &Request) -> bool {
        match request.call {
            Call::Rebuild => (request.slot as usize) < request.sizes.slots(),
            _ => (request.original as usize) < request.sizes.originals(),
        }
    }

    /// What each byte of a dropped page counts as.
    const DROPPED_BYTE: u8 = 255;

    /// Has a pinned page another entry than its own number? To drop it is one too.
    fn moves_pinned(request: &Request) -> bool {
        let entries = request.entries();
        let mut pages = entries.iter().zip(&request.parts.pins).enumerate();
        pages.any(|(k, (&entry, &pin))| Self::is_pinned(pin) && entry != k)
    }

    /// The pages on which the split exchanges sets a and b.
    fn exchanged(partial: &Partial, ends: (usize, usize), a: usize, b: usize) -> Vec<usize> {
        let (_source, destination) = ends;
        partial.path_from_destination(destination, a, b)
    }

    fn set_after_exchange(a: usize, _b: usize) -> usize {
        a
    }

    /// The "top" of a cycle is what the paper calls the tail: its highest block.
    fn top(cycle: &[usize]) -> usize {
        *cycle.iter().max().expect("a cycle has a block")
    }

    /// D(i) of c(i), which lies in block i.
    fn own_term(moves: &Move, original: usize) -> Term {
        Self::plain_term(moves, original)
    }

    /// c(i) from D(i) and, unless i is the top, D(pred(i)).
    fn coded_page(own: Vec<u8>, from_pred: Option<Vec<u8>>) -> Vec<u8> {
        let mut page = own;
        if let Some(other) = from_pred {
            add(&mut page, &other);
        }
        page
    }

    /// How many bytes of a page load the power stage when it is programmed.
    fn written_bytes(page: &[u8]) -> u32 {
        page.iter().filter(|&&byte| byte != 255).count() as u32
    }

    /// Is a page's content known without a look at the store?
    fn is_known(moves: &Move, original: usize) -> bool {
        moves.is_dropped(original)
    }

    /// Read's second rule: is the page rebuilt against the direction of moves?
    fn goes_back(flash: &Flash, top: usize) -> bool {
        let sizes = &flash.sizes;
        let rest_left = (0..=sizes.data_blocks()).any(|b| flash.full_of(b, sizes.letter(0)));
        flash.full_of(top - 1, sizes.letter(1)) || rest_left
    }

    /// Read's third rule: does the way forward end with block `v`?
    fn forward_ends(moves: &Move, flash: &Flash, set: usize, v: usize) -> bool {
        flash.full_of(moves.next(set, v), flash.sizes.letter(2))
    }

    /// Read's second rule: is the walk over because this page is dropped?
    fn stops_back(_moves: &Move, _original: usize) -> bool {
        false
    }

    /// The same for the third rule.
    fn stops_forward(_moves: &Move, _original: usize) -> bool {
        false
    }

    /// A page that still lies where it was: its bytes, unless it is dropped.
    fn plain_term(moves: &Move, original: usize) -> Term {
        match moves.is_dropped(original) {
            true => Term::Dropped,
            false => Term::Stored(moves.sizes.slot_of(original)),
        }
    }

    /// A page that lies at its destination: its bytes, dropped or not.
    fn final_term(moves: &Move, original: usize) -> Term {
        Term::Stored(moves.destination_slot(original))
    }

    /// How many stored pages a sum takes.
    fn pages_summed(terms: &[Term]) -> u32 {
        stored(terms).len() as u32
    }

    /// How many stored pages are read for D(i) of a coded page.
    fn own_reads(term: Term) -> u32 {
        Self::reads(&[term])
    }

    /// How many stored pages are read for the other terms of a written page.
    fn reads(terms: &[Term]) -> u32 {
        stored(terms).len() as u32
    }

    /// The reads of c(i): those of D(i) and, unless i is the top, of D(pred(i)).
    fn coded_reads(own: u32, from_pred: Option<u32>) -> u32 {
        own + from_pred.unwrap_or(0)
    }

    /// The reads of a run with those of one more page.
    fn reads_so_far(before: u32, page: u32) -> u32 {
        before + page
    }

    /// The mark of a page written, whatever its bytes are.
    fn mark_of(_bytes: &[u8], letter: u8) -> u8 {
        letter
    }

    /// Does a page fit the mark that the place has there?
    fn page_fits(flash: &Flash, slot: usize, due: u8) -> bool {
        flash.marks[slot] == due && (due != UNWRITTEN || flash.is_blank(slot))
    }

    fn steps_to_take(place: u32, budget: u32, all: u32) -> u32 {
        budget.min(all - place)
    }

    /// A counter of the record, low byte first.
    fn counter_of(bytes: [u8; 4]) -> u32 {
        u32::from_le_bytes(bytes)
    }

    fn counter_bytes(count: u32) -> [u8; 4] {
        count.to_le_bytes()
    }

    /// The counter that an erase of this block raises.
    fn counter_raised(block: usize) -> usize {
        block
    }

    /// A counter after one more erase; at its end it stays.
    fn one_more(count: u32) -> u32 {
        count.saturating_add(1)
    }

    /// The pair after an erase of this block, whose counter went from one count
    /// to the other: both are new if the count is higher, and the block is if the
    /// count is the same and the block lower.
    fn pair_after((highest, most_worn): Pair, block: u8, _before: u32, count: u32) -> Pair {
        if count > highest {
            (count, block)
        } else if count == highest && block < most_worn {
            (highest, block)
        } else {
            (highest, most_worn)
        }
    }

    /// The pair made from the counters.
    fn refreshed(counters: &[u32]) -> Pair {
        fresh_pair(counters)
    }

    /// Is the record held against the limit?
    fn looks_at_wear(request: &Request) -> bool {
        request.place == 0
    }

    /// The blocks whose counters are.
    fn blocks_worn(request: &Request) -> RangeInclusive<usize> {
        0..=request.sizes.data_blocks()
    }

    /// How often an uncut move erases a block.
    fn erases_of(request: &Request, block: usize) -> u32 {
        match block == 0 || block == request.sizes.data_blocks() {
            true => 1,
            false => 2,
        }
    }

    fn passes(count: u32, erases: u32, limit: u32) -> bool {
        u64::from(count) + u64::from(erases) > u64::from(limit)
    }

    /// The slots whose sum rebuilds an original without this slot, if it is not
    /// lost: those of read, or else the others that were found.
    fn rebuilt_from(
        by_read: Vec<usize>,
        found: Option<Vec<usize>>,
        slot: usize,
    ) -> Option<Vec<usize>> {
        let found = found?;
        Some(match by_read.contains(&slot) {
            true => found,
            false => by_read,
        })
    }

    /// Is this slot left out where that one cannot be read?
    fn leaves_out(_sizes: &Sizes, named: usize, slot: usize) -> bool {
        slot == named
    }

    /// Are the pages of a block used to rebuild others?
    fn is_used(flash: &Flash, block: usize) -> bool {
        !flash.unfinished(block)
    }

    /// What each byte of a lost original becomes.
    const LOST_BYTE: u8 = 255;

    /// The bytes that tell a lost original, and a rebuilt one.
    const FLAGS: [u8; 2] = [0, 1];

    fn recovery(flash: &Flash) -> Option<Recovery> {
        recovery::find(flash)
    }

    /// The last word on an answer; nothing to add when all is right.
    fn amend(_request: &Request, _answer: &mut Answer) {}
}

pub struct Correct;

impl Rules for Correct {}
