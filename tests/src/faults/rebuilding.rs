//! Faults in what is rebuilt without one page.

use super::refusing::{other_order, LooseLength};
use super::{fault, Fault};
use crate::simulator::calls::answer;
use crate::simulator::flash::Flash;
use crate::simulator::refusals::{order, Refusal};
use crate::simulator::request::{Answer, Call, Part, Request};
use crate::simulator::rules::{Correct, Rules};
use crate::simulator::sizes::Sizes;

const AREA: usize = Part::Area as usize;
const FLAGS: usize = Part::Flags as usize;

pub fn faults() -> Vec<Fault> {
    vec![
        fault::<LostZeros>("rebuild: a lost page is written as zeros"),
        fault::<LostLeft>("rebuild: a lost page is left as it was"),
        fault::<LostFlagLeft>("rebuild: the byte of a lost page is left as it was"),
        fault::<Flags255>("rebuild: the byte of a rebuilt page is 255"),
        fault::<FlagsTurned>("rebuild: the bytes change places"),
        fault::<NoOther>("rebuild: the other sum is never tried"),
        fault::<AlwaysRead>("rebuild: read's sum is used though it has the slot"),
        fault::<OtherFirst>("rebuild: another sum is used though read's leaves the slot out"),
        fault::<AddedTwice>("rebuild: the other sum keeps the pages that cancel"),
        fault::<SetLost>("rebuild: all of a set is lost"),
        fault::<BlockLeftOut>("rebuild: all pages of the slot's block are left out"),
        fault::<AreaLeft>("rebuild: the area is left where nothing is lost"),
        fault::<UnfinishedUsed>("rebuild: a page of the unfinished block is used"),
        fault::<UnfinishedLost>("rebuild: a slot of the unfinished block loses its original"),
        fault::<HalfWritten>("rebuild: a half-written mark fits no moment"),
        fault::<ByOriginal>("rebuild: the slot is counted from block 1"),
        fault::<SlotFirst>("rebuild looks for 7 before 6"),
        fault::<PinsLeftOut>("rebuild leaves the pins out"),
        fault::<PinsAfterSplit>("rebuild looks for 11 after 4"),
        fault::<DropsTaken>("rebuild takes a list with drops"),
        fault::<SlotAtTheEnd>("rebuild takes slot (n + 1) x m"),
        fault::<SlotOfLastBlock>("rebuild refuses slot n x m"),
        fault::<FillsRefused>("rebuild fills the areas of a refused call"),
        fault::<LooseLength<AREA, 1>>("an area one byte too long is taken"),
        fault::<LooseLength<AREA, -1>>("an area one byte too short is taken"),
        fault::<LooseLength<FLAGS, 1>>("flags one byte too long are taken"),
        fault::<LooseLength<FLAGS, -1>>("flags one byte too short are taken"),
    ]
}

other_order!(
    SlotFirst,
    Call::Rebuild,
    [Sizes, Lengths, List, Pinned, Split, Original, Marks]
);
other_order!(
    PinsLeftOut,
    Call::Rebuild,
    [Sizes, Lengths, List, Split, Marks, Original]
);
other_order!(
    PinsAfterSplit,
    Call::Rebuild,
    [Sizes, Lengths, List, Split, Pinned, Marks, Original]
);

struct LostZeros;

impl Rules for LostZeros {
    const LOST_BYTE: u8 = 0;
}

struct Flags255;

impl Rules for Flags255 {
    const FLAGS: [u8; 2] = [0, 255];
}

struct FlagsTurned;

impl Rules for FlagsTurned {
    const FLAGS: [u8; 2] = [1, 0];
}

fn rebuilt(request: &Request, answer: &Answer) -> bool {
    request.call == Call::Rebuild && answer.numbers.returned == 0
}

/// The originals that are lost, with the bytes of their pages in the area.
fn lost(request: &Request, answer: &Answer) -> Vec<(usize, std::ops::Range<usize>)> {
    let bytes = request.sizes.bytes();
    let flags = answer.parts.flags.iter().enumerate();
    let lost = flags.filter(|(_, &flag)| flag == 0);
    lost.map(|(k, _)| (k, k * bytes..(k + 1) * bytes)).collect()
}

struct LostLeft;

impl Rules for LostLeft {
    fn amend(request: &Request, answer: &mut Answer) {
        if rebuilt(request, answer) {
            for (_, page) in lost(request, answer) {
                answer.parts.area[page.clone()].copy_from_slice(&request.parts.area[page]);
            }
        }
    }
}

struct LostFlagLeft;

impl Rules for LostFlagLeft {
    fn amend(request: &Request, answer: &mut Answer) {
        if rebuilt(request, answer) {
            for (k, _) in lost(request, answer) {
                answer.parts.flags[k] = request.parts.flags[k];
            }
        }
    }
}

struct NoOther;

impl Rules for NoOther {
    fn rebuilt_from(
        by_read: Vec<usize>,
        _found: Option<Vec<usize>>,
        slot: usize,
    ) -> Option<Vec<usize>> {
        Some(by_read).filter(|slots| !slots.contains(&slot))
    }
}

struct AlwaysRead;

impl Rules for AlwaysRead {
    fn rebuilt_from(
        by_read: Vec<usize>,
        _found: Option<Vec<usize>>,
        _slot: usize,
    ) -> Option<Vec<usize>> {
        Some(by_read)
    }
}

/// On a true store it is the same page.
struct OtherFirst;

impl Rules for OtherFirst {
    fn rebuilt_from(
        _by_read: Vec<usize>,
        found: Option<Vec<usize>>,
        _slot: usize,
    ) -> Option<Vec<usize>> {
        found
    }
}

struct AddedTwice;

impl Rules for AddedTwice {
    fn rebuilt_from(
        by_read: Vec<usize>,
        found: Option<Vec<usize>>,
        slot: usize,
    ) -> Option<Vec<usize>> {
        let right = Correct::rebuilt_from(by_read.clone(), found, slot)?;
        let mut slots = [by_read, right].concat();
        slots.sort();
        slots.dedup();
        slots.retain(|&other| other != slot);
        Some(slots)
    }
}

struct SetLost;

impl Rules for SetLost {
    fn amend(request: &Request, answer: &mut Answer) {
        if !rebuilt(request, answer) {
            return;
        }
        let bytes = request.sizes.bytes();
        let sets = &request.parts.sets;
        let with_lost: Vec<u8> = lost(request, answer)
            .iter()
            .map(|(k, _)| sets[*k])
            .collect();
        for k in (0..sets.len()).filter(|&k| with_lost.contains(&sets[k])) {
            answer.parts.flags[k] = 0;
            answer.parts.area[k * bytes..(k + 1) * bytes].fill(255);
        }
    }
}

struct BlockLeftOut;

impl Rules for BlockLeftOut {
    fn leaves_out(sizes: &Sizes, named: usize, slot: usize) -> bool {
        named / sizes.pages() == slot / sizes.pages()
    }
}

struct AreaLeft;

impl Rules for AreaLeft {
    fn amend(request: &Request, answer: &mut Answer) {
        if rebuilt(request, answer) && !answer.parts.flags.contains(&0) {
            answer.parts.area = request.parts.area.clone();
        }
    }
}

fn flash_of(request: &Request) -> Flash {
    Flash::new(request.sizes, &request.parts.store, &request.parts.marks)
}

/// A page that an erase has not torn, where its original is lost.
struct UnfinishedUsed;

impl Rules for UnfinishedUsed {
    fn amend(request: &Request, answer: &mut Answer) {
        if !rebuilt(request, answer) {
            return;
        }
        let flash = flash_of(request);
        for (k, page) in lost(request, answer) {
            let slot = request.sizes.slot_of(k);
            let plain = flash.marks[slot] == request.sizes.letter(0);
            if plain && flash.unfinished(request.sizes.block_of(k)) {
                answer.parts.flags[k] = 1;
                answer.parts.area[page].copy_from_slice(flash.page(slot));
            }
        }
    }
}

struct UnfinishedLost;

impl Rules for UnfinishedLost {
    fn amend(request: &Request, answer: &mut Answer) {
        let (slot, pages) = (request.slot as usize, request.sizes.pages());
        if rebuilt(request, answer) && slot >= pages && flash_of(request).unfinished(slot / pages) {
            answer.parts.flags[slot - pages] = 0;
        }
    }
}

struct HalfWritten;

impl Rules for HalfWritten {
    fn amend(request: &Request, answer: &mut Answer) {
        let half = |&mark: &u8| (3..255).contains(&mark);
        if rebuilt(request, answer) && request.parts.marks.iter().any(half) {
            answer.numbers.returned = 6;
        }
    }
}

struct ByOriginal;

impl Rules for ByOriginal {
    fn amend(request: &Request, given: &mut Answer) {
        let slot = request.slot + request.sizes.m;
        if rebuilt(request, given) && (slot as usize) < request.sizes.slots() {
            *given = answer(&Request {
                slot,
                ..request.clone()
            });
        }
    }
}

struct DropsTaken;

impl Rules for DropsTaken {
    fn takes_drops(_call: Call) -> bool {
        true
    }
}

struct SlotAtTheEnd;

impl Rules for SlotAtTheEnd {
    fn number_fits(request: &Request) -> bool {
        let behind = request.slot as usize == request.sizes.slots();
        (request.call == Call::Rebuild && behind) || Correct::number_fits(request)
    }
}

struct SlotOfLastBlock;

impl Rules for SlotOfLastBlock {
    fn number_fits(request: &Request) -> bool {
        let last = request.slot as usize >= request.sizes.originals();
        !(request.call == Call::Rebuild && last) && Correct::number_fits(request)
    }
}

struct FillsRefused;

impl Rules for FillsRefused {
    fn amend(request: &Request, answer: &mut Answer) {
        if request.call == Call::Rebuild && answer.numbers.returned > 2 {
            answer.parts.flags.fill(0);
        }
    }
}
