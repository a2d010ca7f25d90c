//! Faults in the recovery.

use super::{fault, Fault};
use crate::simulator::flash::Flash;
use crate::simulator::recovery::{find, Recovery};
use crate::simulator::request::{Answer, Call, Request};
use crate::simulator::rules::Rules;
use crate::simulator::sizes::UNWRITTEN;

pub fn faults() -> Vec<Fault> {
    vec![
        fault::<GoesOn>("mend goes on inside an unfinished block, at its next page"),
        fault::<SkipsBlankErase>("mend does not erase a blank block"),
        fault::<SkipsUnmarkedErase>("mend does not erase a block without marks"),
        fault::<PlaceOffByOne>("mend's place is one too high"),
        fault::<PlaceBeforeErase>("mend reports the place and leaves the block"),
        fault::<SecondMove>("mend gives place 0 after the finish"),
        fault::<HalfWritten<3, 254>>("mend and read refuse half-written marks"),
        fault::<HalfWritten<3, 253>>("of the half-written marks 254 alone is taken"),
        fault::<HalfWritten<4, 254>>("of the half-written marks 3 alone is taken"),
        fault::<OneTakenForFull>("a block of letters and one half-written mark counts as full"),
        fault::<SecondUnseen>(
            "a second unfinished block is not noticed if its marks are half-written",
        ),
        fault::<ThirdUnseen>("three unfinished blocks are taken for one"),
        fault::<AllCoded>("all blocks full of s + 1 are taken for a moment"),
        fault::<JudgesUnfinished>("what an unfinished block holds is judged"),
        fault::<ConstantPlace>("mend always gives the same place"),
    ]
}

struct GoesOn;

impl Rules for GoesOn {
    fn recovery(flash: &Flash) -> Option<Recovery> {
        let mut recovery = find(flash)?;
        if let Some(block) = recovery.erase {
            let mut slots = flash.block_slots(block);
            let written = slots
                .clone()
                .take_while(|&slot| flash.is_whole(slot))
                .count();
            if written > 0 && slots.all(|slot| flash.marks[slot] <= 2 || flash.is_blank(slot)) {
                recovery.place += written as u32;
                recovery.erase = None;
            }
        }
        Some(recovery)
    }
}

struct SkipsBlankErase;

impl Rules for SkipsBlankErase {
    fn recovery(flash: &Flash) -> Option<Recovery> {
        let mut recovery = find(flash)?;
        recovery.erase = recovery.erase.filter(|&block| !flash.block_is_blank(block));
        Some(recovery)
    }
}

/// It still reports an erase, so that only the bytes tell.
struct SkipsUnmarkedErase;

impl Rules for SkipsUnmarkedErase {
    fn amend(request: &Request, answer: &mut Answer) {
        if request.call != Call::Mend || answer.numbers.erases == 0 {
            return;
        }
        if request.parts.marks == answer.parts.marks {
            answer.parts.store = request.parts.store.clone();
        }
    }
}

struct PlaceOffByOne;

impl Rules for PlaceOffByOne {
    fn recovery(flash: &Flash) -> Option<Recovery> {
        let mut recovery = find(flash)?;
        recovery.place += 1;
        Some(recovery)
    }
}

struct PlaceBeforeErase;

impl Rules for PlaceBeforeErase {
    fn amend(request: &Request, answer: &mut Answer) {
        if request.call == Call::Mend {
            answer.parts = request.parts.clone();
        }
    }
}

struct SecondMove;

impl Rules for SecondMove {
    fn recovery(flash: &Flash) -> Option<Recovery> {
        let mut recovery = find(flash)?;
        recovery.place %= flash.sizes.steps() as u32;
        Some(recovery)
    }
}

/// Marks from `LOW` to `HIGH` fit no moment.
struct HalfWritten<const LOW: u8, const HIGH: u8>;

impl<const LOW: u8, const HIGH: u8> Rules for HalfWritten<LOW, HIGH> {
    fn recovery(flash: &Flash) -> Option<Recovery> {
        let refused = |mark: &u8| (LOW..=HIGH).contains(mark);
        find(flash).filter(|_| !flash.marks.iter().any(refused))
    }
}

struct OneTakenForFull;

impl Rules for OneTakenForFull {
    fn recovery(flash: &Flash) -> Option<Recovery> {
        let mut seen = flash.clone();
        for block in seen.marks.chunks_mut(flash.sizes.pages()) {
            let odd = block.iter().filter(|&&mark| half_written(mark)).count();
            let letter = block.iter().copied().find(|&mark| mark <= 2);
            if let (1, Some(letter)) = (odd, letter) {
                block
                    .iter_mut()
                    .filter(|mark| half_written(**mark))
                    .for_each(|mark| *mark = letter);
            }
        }
        find(&seen)
    }
}

fn half_written(mark: u8) -> bool {
    mark > 2 && mark != UNWRITTEN
}

/// The marks with these blocks as full as the last block of all.
fn filled(flash: &Flash, blocks: &[usize]) -> Flash {
    let mut seen = flash.clone();
    let last = flash.marks[flash.marks.len() - 1];
    for &block in blocks {
        seen.marks[flash.block_slots(block)].fill(last);
    }
    seen
}

fn unfinished(flash: &Flash) -> Vec<usize> {
    let blocks = 0..=flash.sizes.data_blocks();
    blocks.filter(|&block| flash.unfinished(block)).collect()
}

struct SecondUnseen;

impl Rules for SecondUnseen {
    fn recovery(flash: &Flash) -> Option<Recovery> {
        let mut odd = unfinished(flash);
        odd.retain(|&block| {
            flash.marks[flash.block_slots(block)]
                .iter()
                .all(|&mark| half_written(mark))
        });
        match (unfinished(flash).len(), &odd[..]) {
            (2, &[block]) => find(&filled(flash, &[block])),
            _ => find(flash),
        }
    }
}

struct ThirdUnseen;

impl Rules for ThirdUnseen {
    fn recovery(flash: &Flash) -> Option<Recovery> {
        match unfinished(flash)[..] {
            [_, second, third] => find(&filled(flash, &[second, third])),
            _ => find(flash),
        }
    }
}

struct AllCoded;

impl Rules for AllCoded {
    fn recovery(flash: &Flash) -> Option<Recovery> {
        let mut marks = flash.marks.iter();
        if marks.all(|&mark| mark == flash.sizes.letter(1)) {
            let place = flash.sizes.steps() as u32 / 2;
            return Some(Recovery { place, erase: None });
        }
        find(flash)
    }
}

/// A page of the third tag cannot come from a cut in the forward pass.
struct JudgesUnfinished;

impl Rules for JudgesUnfinished {
    fn recovery(flash: &Flash) -> Option<Recovery> {
        let recovery = find(flash)?;
        let forward = (recovery.place as usize) < flash.sizes.steps() / 2;
        let last_tag = flash.marks.contains(&flash.sizes.letter(2));
        (!forward || !last_tag).then_some(recovery)
    }
}

struct ConstantPlace;

impl Rules for ConstantPlace {
    fn amend(request: &Request, answer: &mut Answer) {
        if request.call == Call::Mend && answer.numbers.returned == 0 {
            answer.numbers.place = 0;
        }
    }
}
