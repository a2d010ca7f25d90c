//! Faults in the erase counters, and in what their limit refuses.

use super::exports::{calls, Manners, Raw};
use super::refusing::{other_order, LooseLength};
use super::{fault, Fault};
use crate::simulator::refusals::{order, Refusal};
use crate::simulator::request::{Answer, Call, Part, Request};
use crate::simulator::rules::{Correct, Rules};
use crate::simulator::wear::{count_erases, counters, record};
use std::ops::RangeInclusive;

const WEAR: usize = Part::Wear as usize;

pub fn faults() -> Vec<Fault> {
    let mut faults = vec![
        fault::<BeforePlace>("12 is looked for before 5"),
        fault::<BeforeSplit>("12 is looked for before 4"),
        fault::<NotLookedFor>("12 is not looked for"),
        fault::<ByMend>("mend looks for 12"),
        fault::<AtPlaceOne>("12 is looked for at place 1 too"),
        fault::<AtEveryPlace>("12 is looked for at every place"),
        fault::<OnlyWithBudget>("12 is looked for only with a budget"),
        fault::<SumIn32Bits>("counter and erases are added in 32 bits"),
        fault::<SumSaturates>("counter and erases are added up to the end of 32 bits"),
        fault::<AtLeast>("a limit just kept is refused"),
        fault::<CounterAlone>("the erases of the move are not added"),
        fault::<OfThisCall>("only the erases of the call are added"),
        fault::<OneForAll>("one erase is added for every block"),
        fault::<TwoForAll>("two erases are added for every block"),
        fault::<OneForTheLast>("two erases are added for the spare"),
        fault::<BlocksAbove>("counters of blocks above n are looked at"),
        fault::<OneAbove>("the counter of block n + 1 is looked at"),
        fault::<ButTheLast>("the counter of block n is not looked at"),
        fault::<ButTheSpare>("the counter of the spare is not looked at"),
        fault::<Wraps>("a full counter begins anew"),
        fault::<In24Bits>("counters are kept in 24 bits"),
        fault::<StopsEarly>("a counter stays one below its end"),
        fault::<BlockBelow>("the block below gets the erase"),
        fault::<DataBlocksFromOne>("counters are those of the data blocks alone"),
        fault::<HighByteFirst>("counters are taken high byte first"),
        fault::<MendUncounted>("mend does not count its erase"),
        fault::<MendCountsNone>("mend counts an erase that it does not make"),
        fault::<RunUncounted>("run does not count"),
        fault::<FirstErase>("run counts the first erase of a call alone"),
        fault::<EveryStep>("run counts an erase at every call"),
        fault::<CountsRefused>("a run refused as 12 counts its erases"),
        fault::<ClearsRefused>("a refused call clears the record"),
        fault::<LooseLength<WEAR, 1>>("a record one byte too long is taken"),
        fault::<LooseLength<WEAR, -1>>("a record one byte too short is taken"),
        fault::<LooseLength<WEAR, 4>>("a record of one more counter is taken"),
        fault::<AsManyAsBlocks>("a record of as many counters as blocks is asked for"),
    ];
    faults.push(Fault {
        name: "a byte behind the record is written",
        calls: calls::<Correct, PastWear>(),
    });
    faults.push(Fault {
        name: "a byte before the record is written",
        calls: calls::<Correct, BeforeWear>(),
    });
    faults
}

other_order!(
    BeforePlace,
    Call::Run,
    [Sizes, Lengths, List, Pinned, Split, Worn, Place]
);
other_order!(
    BeforeSplit,
    Call::Run,
    [Sizes, Lengths, List, Pinned, Worn, Split, Place]
);
other_order!(
    NotLookedFor,
    Call::Run,
    [Sizes, Lengths, List, Pinned, Split, Place]
);
other_order!(ByMend, Call::Mend, [Sizes, Lengths, Marks, Worn]);

struct AtPlaceOne;

impl Rules for AtPlaceOne {
    fn looks_at_wear(request: &Request) -> bool {
        request.place <= 1
    }
}

struct AtEveryPlace;

impl Rules for AtEveryPlace {
    fn looks_at_wear(_request: &Request) -> bool {
        true
    }
}

struct OnlyWithBudget;

impl Rules for OnlyWithBudget {
    fn looks_at_wear(request: &Request) -> bool {
        request.place == 0 && request.budget > 0
    }
}

struct SumIn32Bits;

impl Rules for SumIn32Bits {
    fn passes(count: u32, erases: u32, limit: u32) -> bool {
        count.wrapping_add(erases) > limit
    }
}

struct SumSaturates;

impl Rules for SumSaturates {
    fn passes(count: u32, erases: u32, limit: u32) -> bool {
        count.saturating_add(erases) > limit
    }
}

struct AtLeast;

impl Rules for AtLeast {
    fn passes(count: u32, erases: u32, limit: u32) -> bool {
        u64::from(count) + u64::from(erases) >= u64::from(limit)
    }
}

struct CounterAlone;

impl Rules for CounterAlone {
    fn passes(count: u32, _erases: u32, limit: u32) -> bool {
        count > limit
    }
}

/// A call that stops before the first erase wears nothing.
struct OfThisCall;

impl Rules for OfThisCall {
    fn erases_of(request: &Request, block: usize) -> u32 {
        let all = Correct::erases_of(request, block);
        all.min(request.budget / (request.sizes.m + 1))
    }
}

struct OneForAll;

impl Rules for OneForAll {
    fn erases_of(_request: &Request, _block: usize) -> u32 {
        1
    }
}

struct TwoForAll;

impl Rules for TwoForAll {
    fn erases_of(_request: &Request, _block: usize) -> u32 {
        2
    }
}

struct OneForTheLast;

impl Rules for OneForTheLast {
    fn erases_of(request: &Request, block: usize) -> u32 {
        match block == request.sizes.data_blocks() {
            true => 1,
            false => 2,
        }
    }
}

struct BlocksAbove;

impl Rules for BlocksAbove {
    fn blocks_worn(_request: &Request) -> RangeInclusive<usize> {
        0..=64
    }
}

struct OneAbove;

impl Rules for OneAbove {
    fn blocks_worn(request: &Request) -> RangeInclusive<usize> {
        0..=(request.sizes.data_blocks() + 1).min(64)
    }
}

struct ButTheLast;

impl Rules for ButTheLast {
    fn blocks_worn(request: &Request) -> RangeInclusive<usize> {
        0..=request.sizes.data_blocks() - 1
    }
}

struct ButTheSpare;

impl Rules for ButTheSpare {
    fn blocks_worn(request: &Request) -> RangeInclusive<usize> {
        1..=request.sizes.data_blocks()
    }
}

struct Wraps;

impl Rules for Wraps {
    fn one_more(count: u32) -> u32 {
        count.wrapping_add(1)
    }
}

struct In24Bits;

impl Rules for In24Bits {
    fn one_more(count: u32) -> u32 {
        count & 0xff00_0000 | Correct::one_more(count) & 0x00ff_ffff
    }
}

struct StopsEarly;

impl Rules for StopsEarly {
    fn one_more(count: u32) -> u32 {
        count.max((u32::MAX - 1).min(Correct::one_more(count)))
    }
}

struct BlockBelow;

impl Rules for BlockBelow {
    fn counter_raised(block: usize) -> usize {
        block.saturating_sub(1)
    }
}

/// The first counter is that of block 1.
struct DataBlocksFromOne;

impl Rules for DataBlocksFromOne {
    fn counter_raised(block: usize) -> usize {
        block.checked_sub(1).unwrap_or(64)
    }
}

struct HighByteFirst;

impl Rules for HighByteFirst {
    fn counter_of(bytes: [u8; 4]) -> u32 {
        u32::from_be_bytes(bytes)
    }

    fn counter_bytes(count: u32) -> [u8; 4] {
        count.to_be_bytes()
    }
}

fn done(request: &Request, answer: &Answer, call: Call) -> bool {
    request.call == call && answer.numbers.returned == 0
}

struct MendUncounted;

impl Rules for MendUncounted {
    fn amend(request: &Request, answer: &mut Answer) {
        if done(request, answer, Call::Mend) {
            answer.parts.wear = request.parts.wear.clone();
        }
    }
}

/// The block that would be written next.
struct MendCountsNone;

impl Rules for MendCountsNone {
    fn amend(request: &Request, answer: &mut Answer) {
        if done(request, answer, Call::Mend) && answer.numbers.erases == 0 {
            count_erases::<Correct>(&mut answer.parts.wear, &[0]);
        }
    }
}

struct RunUncounted;

impl Rules for RunUncounted {
    fn amend(request: &Request, answer: &mut Answer) {
        if done(request, answer, Call::Run) {
            answer.parts.wear = request.parts.wear.clone();
        }
    }
}

struct FirstErase;

impl Rules for FirstErase {
    fn amend(request: &Request, answer: &mut Answer) {
        if done(request, answer, Call::Run) && answer.numbers.erases > 1 {
            let mut counts = counters::<Correct>(&request.parts.wear);
            let after = counters::<Correct>(&answer.parts.wear);
            if let Some(first) = (0..counts.len()).find(|&block| counts[block] != after[block]) {
                counts[first] += 1;
            }
            answer.parts.wear = record::<Correct>(&counts);
        }
    }
}

/// Also where a call ends before its erase.
struct EveryStep;

impl Rules for EveryStep {
    fn amend(request: &Request, answer: &mut Answer) {
        if done(request, answer, Call::Run) && answer.numbers.erases == 0 {
            count_erases::<Correct>(&mut answer.parts.wear, &[0]);
        }
    }
}

struct CountsRefused;

impl Rules for CountsRefused {
    fn amend(request: &Request, answer: &mut Answer) {
        if answer.numbers.returned == 12 {
            let blocks: Vec<usize> = (0..=request.sizes.data_blocks()).collect();
            count_erases::<Correct>(&mut answer.parts.wear, &blocks);
        }
    }
}

struct ClearsRefused;

impl Rules for ClearsRefused {
    fn amend(_request: &Request, answer: &mut Answer) {
        if answer.numbers.returned != 0 {
            answer.parts.wear.fill(0);
        }
    }
}

struct AsManyAsBlocks;

impl Rules for AsManyAsBlocks {
    fn amend(request: &Request, answer: &mut Answer) {
        let records = matches!(request.call, Call::Run | Call::Mend);
        if records && answer.numbers.returned == 0 && request.sizes.n < 64 {
            answer.numbers = Default::default();
            answer.numbers.returned = Refusal::Lengths as u32;
            answer.parts = request.parts.clone();
        }
    }
}

struct PastWear;

impl Manners for PastWear {
    unsafe fn harm(_call: Call, part: Part, raw: Raw) {
        if part == Part::Wear {
            *raw.start.add(raw.len) = 0;
        }
    }
}

struct BeforeWear;

impl Manners for BeforeWear {
    unsafe fn harm(_call: Call, part: Part, raw: Raw) {
        if part == Part::Wear {
            *raw.start.sub(1) = 1;
        }
    }
}
