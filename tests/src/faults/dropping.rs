//! Faults with pages that are thrown away.

use super::exports::{calls, Manners, Raw};
use super::{fault, Fault};
use crate::simulator::calls::move_of;
use crate::simulator::dropping::{completed, stored, sum, Term, DROPPED};
use crate::simulator::flash::Flash;
use crate::simulator::permutation::Move;
use crate::simulator::reading::terms_by_rules;
use crate::simulator::refusals::{refusal, Refusal};
use crate::simulator::request::{Answer, Call, Part, Request};
use crate::simulator::rules::{Correct, Rules};
use crate::simulator::sizes::UNWRITTEN;
use std::slice;

pub fn faults() -> Vec<Fault> {
    let mut faults = vec![
        fault::<Zeros>("a dropped page is added as zeros"),
        fault::<StopsBack>("the walk back stops at the first dropped page"),
        fault::<StopsForward>("the walk on stops at the first dropped page"),
        fault::<PlainStored>("a dropped plain page is summed from its stored bytes"),
        fault::<OwnStored>("a coded page takes the stored bytes of a dropped D(i)"),
        fault::<Counted>("the 255s of a dropped page are counted"),
        fault::<FinalKnown>("a dropped page in a block full of s + 2 is 255s, not the stored page"),
        fault::<NeverKnown>("a dropped page is rebuilt from stored pages"),
        fault::<ReadRebuilds>("reading a dropped page sums stored pages"),
        fault::<BytesCounted>("reading a dropped page counts its bytes as written"),
        fault::<ReadFirst>("reading a dropped page is not refused for the marks"),
        fault::<Descending>("places are paired descending"),
        fault::<PagesDescending>("the last dropped page gets the first place"),
        fault::<OwnPlace>("a dropped page stays if nobody fills its place"),
        fault::<MetTwice>("65535 counts as met twice"),
        fault::<NoDrops>("an entry of 65535 is refused"),
        fault::<Above<65534>>("an entry of 65534 drops its page"),
        fault::<Above<32768>>("entries with the highest bit set drop their pages"),
        fault::<LowByte>("an entry with a low byte of 255 drops its page"),
        fault::<PinOfPaired>("a pinned page may be dropped if it is paired with its place"),
        fault::<SetsOfKept>("the sets of dropped pages are not looked at"),
        fault::<LeftBlank>("a page of 255s is left unmarked"),
    ];
    faults.push(Fault {
        name: "the lent list is completed",
        calls: calls::<Correct, CompletesLent>(),
    });
    faults
}

struct Zeros;

impl Rules for Zeros {
    const DROPPED_BYTE: u8 = 0;
}

/// The page is known there, so that the sum is right on a true store.
struct StopsBack;

impl Rules for StopsBack {
    fn stops_back(moves: &Move, original: usize) -> bool {
        moves.is_dropped(original)
    }
}

struct StopsForward;

impl Rules for StopsForward {
    fn stops_forward(moves: &Move, original: usize) -> bool {
        moves.is_dropped(original)
    }
}

fn stored_plain(moves: &Move, original: usize) -> Term {
    Term::Stored(moves.sizes.slot_of(original))
}

struct PlainStored;

impl Rules for PlainStored {
    fn plain_term(moves: &Move, original: usize) -> Term {
        stored_plain(moves, original)
    }

    fn own_term(moves: &Move, original: usize) -> Term {
        Correct::own_term(moves, original)
    }
}

struct OwnStored;

impl Rules for OwnStored {
    fn own_term(moves: &Move, original: usize) -> Term {
        stored_plain(moves, original)
    }
}

struct Counted;

impl Rules for Counted {
    fn pages_summed(terms: &[Term]) -> u32 {
        terms.len() as u32
    }
}

struct FinalKnown;

impl Rules for FinalKnown {
    fn final_term(moves: &Move, original: usize) -> Term {
        match moves.is_dropped(original) {
            true => Term::Dropped,
            false => Correct::final_term(moves, original),
        }
    }
}

/// On a true store their sum is 255s, once the page is coded.
struct NeverKnown;

impl Rules for NeverKnown {
    fn is_known(_moves: &Move, _original: usize) -> bool {
        false
    }
}

/// Was a dropped page read?
fn reads_dropped(request: &Request, answer: &Answer) -> bool {
    let done = request.call == Call::Read && answer.numbers.returned == 0;
    done && request.entries()[request.original as usize] == DROPPED
}

fn flash_of(request: &Request) -> Flash {
    Flash::new(request.sizes, &request.parts.store, &request.parts.marks)
}

struct ReadRebuilds;

impl Rules for ReadRebuilds {
    fn amend(request: &Request, answer: &mut Answer) {
        if reads_dropped(request, answer) {
            let (moves, flash) = (move_of::<Correct>(request), flash_of(request));
            let terms = terms_by_rules::<Correct>(&moves, &flash, request.original as usize);
            answer.parts.work = sum::<Correct>(&flash, &terms);
            answer.numbers.count = stored(&terms).len() as u32;
            answer.numbers.written_bytes = Correct::written_bytes(&answer.parts.work);
        }
    }
}

struct BytesCounted;

impl Rules for BytesCounted {
    fn amend(request: &Request, answer: &mut Answer) {
        if reads_dropped(request, answer) {
            answer.numbers.written_bytes = request.sizes.page_bytes;
        }
    }
}

struct ReadFirst;

impl Rules for ReadFirst {
    fn amend(request: &Request, answer: &mut Answer) {
        let entry = request.entries().get(request.original as usize).copied();
        let read = request.call == Call::Read && entry == Some(DROPPED);
        if read && refusal::<Correct>(request) == Some(Refusal::Marks) {
            answer.numbers.returned = 0;
            answer.parts.work.fill(255);
        }
    }
}

struct Descending;

impl Rules for Descending {
    fn pairs(dropped: Vec<usize>, free: Vec<usize>) -> Vec<(usize, usize)> {
        dropped.into_iter().zip(free.into_iter().rev()).collect()
    }
}

/// Other pairs than descending places give where the list is a bad one.
struct PagesDescending;

impl Rules for PagesDescending {
    fn pairs(dropped: Vec<usize>, free: Vec<usize>) -> Vec<(usize, usize)> {
        dropped.into_iter().rev().zip(free).collect()
    }
}

struct OwnPlace;

impl Rules for OwnPlace {
    fn pairs(dropped: Vec<usize>, free: Vec<usize>) -> Vec<(usize, usize)> {
        let stays = |k: &usize| free.contains(k);
        let others: Vec<usize> = dropped.iter().copied().filter(|k| !stays(k)).collect();
        let left = free
            .iter()
            .copied()
            .filter(|place| !dropped.contains(place));
        let own = dropped.iter().copied().filter(stays).map(|k| (k, k));
        own.chain(others.into_iter().zip(left)).collect()
    }
}

struct MetTwice;

impl Rules for MetTwice {
    fn list_fits(entries: &[usize]) -> bool {
        let drops = entries.iter().filter(|&&entry| entry == DROPPED).count();
        drops < 2 && Correct::list_fits(entries)
    }
}

struct NoDrops;

impl Rules for NoDrops {
    fn list_fits(entries: &[usize]) -> bool {
        !entries.contains(&DROPPED) && Correct::list_fits(entries)
    }
}

/// Entries from this one on.
struct Above<const LOWEST: usize>;

impl<const LOWEST: usize> Rules for Above<LOWEST> {
    fn is_dropped(entry: usize) -> bool {
        entry >= LOWEST
    }
}

struct LowByte;

impl Rules for LowByte {
    fn is_dropped(entry: usize) -> bool {
        entry % 256 == 255
    }
}

/// The pins are held against the completed list.
struct PinOfPaired;

impl Rules for PinOfPaired {
    fn moves_pinned(request: &Request) -> bool {
        let completed = completed::<Correct>(&request.entries());
        let mut pages = completed.iter().zip(&request.parts.pins).enumerate();
        pages.any(|(k, (&place, &pin))| pin != 0 && place != k)
    }
}

/// What the call then does is not looked at: it leaves all as it is.
struct SetsOfKept;

impl Rules for SetsOfKept {
    fn amend(request: &Request, answer: &mut Answer) {
        if answer.numbers.returned != 4 {
            return;
        }
        let mut seen = vec![];
        for (k, &entry) in request.entries().iter().enumerate() {
            if entry != DROPPED {
                let set = request.parts.sets[k];
                seen.push((false, request.sizes.block_of(k), set));
                seen.push((true, request.sizes.block_of(entry), set));
            }
        }
        let count = seen.len();
        seen.sort();
        seen.dedup();
        let in_range = seen
            .iter()
            .all(|&(_, _, set)| usize::from(set) < request.sizes.pages());
        if in_range && seen.len() == count {
            answer.numbers.returned = 0;
        }
    }
}

/// It looks blank, but its mark has to tell that it was written.
struct LeftBlank;

impl Rules for LeftBlank {
    fn mark_of(bytes: &[u8], letter: u8) -> u8 {
        match bytes.iter().all(|&byte| byte == 255) {
            true => UNWRITTEN,
            false => letter,
        }
    }
}

struct CompletesLent;

impl Manners for CompletesLent {
    unsafe fn harm(_call: Call, part: Part, raw: Raw) {
        if part == Part::List {
            let list = slice::from_raw_parts_mut(raw.start, raw.len);
            for entry in list.chunks_exact_mut(2).filter(|entry| **entry == [255; 2]) {
                entry.fill(0);
            }
        }
    }
}
