//! Faults with the highest counter that the record keeps at hand.

use super::{fault, Fault};
use crate::simulator::refusals::Refusal;
use crate::simulator::request::{Answer, Call, Request};
use crate::simulator::rules::{Correct, Rules};
use crate::simulator::wear::{counters, fresh_pair, pair, record, record_with, Pair};

pub fn faults() -> Vec<Fault> {
    vec![
        fault::<EqualHigher>("an equal count at a higher block replaces the block"),
        fault::<EqualNever>("an equal count at a lower block leaves the block"),
        fault::<CountAlone>("a higher count replaces the count alone"),
        fault::<BlockAlone>("a higher count replaces the block alone"),
        fault::<FullLeaves>("an erase at a full counter leaves the pair"),
        fault::<CountBefore>("the pair gets the count before the erase"),
        fault::<LastErased>("the pair is that of the block erased last"),
        fault::<OneMore>("the highest count rises with every erase"),
        fault::<Afresh>("the pair is made afresh in every call"),
        fault::<MendAfresh>("recovery makes the pair afresh"),
        fault::<RunLeaves>("run leaves the pair"),
        fault::<MendLeaves>("recovery leaves the pair"),
        fault::<OwnBlockOnly>(
            "the count of the pair's own block is taken, whatever the count kept",
        ),
        fault::<BlockInSixBits>("the pair's block is kept in 6 bits"),
        fault::<HighByteFirst>("the highest count is kept high byte first"),
        fault::<BlockFirst>("the pair has its block first"),
        fault::<HighestBlock>("the pair made afresh has the highest block"),
        fault::<ButTheLast>("the pair made afresh leaves block 64 out"),
        fault::<FirstBlocks>("the pair made afresh looks at blocks 0 to 31"),
        fault::<ButTheSpare>("the pair made afresh leaves the spare out"),
        fault::<UpdatesOnly>("the call that makes the pair afresh keeps a higher one"),
        fault::<ClearsCounters>("the call that makes the pair afresh clears the counters"),
        fault::<AnyLength>("the call that makes the pair afresh takes any length"),
        fault::<LimitOfPair>("the limit is held against the highest count kept"),
        fault::<RefusedAfresh>("a refused call makes the pair afresh"),
    ]
}

struct EqualHigher;

impl Rules for EqualHigher {
    fn pair_after((highest, most_worn): Pair, block: u8, _before: u32, count: u32) -> Pair {
        match count >= highest {
            true => (count, block),
            false => (highest, most_worn),
        }
    }
}

struct EqualNever;

impl Rules for EqualNever {
    fn pair_after((highest, most_worn): Pair, block: u8, _before: u32, count: u32) -> Pair {
        match count > highest {
            true => (count, block),
            false => (highest, most_worn),
        }
    }
}

struct CountAlone;

impl Rules for CountAlone {
    fn pair_after(kept: Pair, block: u8, before: u32, count: u32) -> Pair {
        let (highest, most_worn) = Correct::pair_after(kept, block, before, count);
        match highest > kept.0 {
            true => (highest, kept.1),
            false => (highest, most_worn),
        }
    }
}

struct BlockAlone;

impl Rules for BlockAlone {
    fn pair_after(kept: Pair, block: u8, before: u32, count: u32) -> Pair {
        (kept.0, Correct::pair_after(kept, block, before, count).1)
    }
}

struct FullLeaves;

impl Rules for FullLeaves {
    fn pair_after(kept: Pair, block: u8, before: u32, count: u32) -> Pair {
        match before == u32::MAX {
            true => kept,
            false => Correct::pair_after(kept, block, before, count),
        }
    }
}

struct CountBefore;

impl Rules for CountBefore {
    fn pair_after(kept: Pair, block: u8, before: u32, _count: u32) -> Pair {
        Correct::pair_after(kept, block, before, before)
    }
}

struct LastErased;

impl Rules for LastErased {
    fn pair_after(_kept: Pair, block: u8, _before: u32, count: u32) -> Pair {
        (count, block)
    }
}

struct OneMore;

impl Rules for OneMore {
    fn pair_after(kept: Pair, block: u8, before: u32, count: u32) -> Pair {
        let (highest, most_worn) = Correct::pair_after(kept, block, before, count);
        (highest.max(kept.0.saturating_add(1)), most_worn)
    }
}

/// A record with its pair as the counters have it.
fn right(wear: &[u8]) -> Vec<u8> {
    record::<Correct>(&counters::<Correct>(wear))
}

fn done(request: &Request, answer: &Answer, calls: &[Call]) -> bool {
    calls.contains(&request.call) && answer.numbers.returned == 0
}

struct Afresh;

impl Rules for Afresh {
    fn amend(request: &Request, answer: &mut Answer) {
        if done(request, answer, &[Call::Run, Call::Mend]) {
            answer.parts.wear = right(&answer.parts.wear);
        }
    }
}

struct MendAfresh;

impl Rules for MendAfresh {
    fn amend(request: &Request, answer: &mut Answer) {
        if done(request, answer, &[Call::Mend]) {
            answer.parts.wear = right(&answer.parts.wear);
        }
    }
}

fn keep_pair(request: &Request, answer: &mut Answer) {
    let counters = counters::<Correct>(&answer.parts.wear);
    answer.parts.wear = record_with::<Correct>(&counters, pair::<Correct>(&request.parts.wear));
}

struct RunLeaves;

impl Rules for RunLeaves {
    fn amend(request: &Request, answer: &mut Answer) {
        if done(request, answer, &[Call::Run]) {
            keep_pair(request, answer);
        }
    }
}

struct MendLeaves;

impl Rules for MendLeaves {
    fn amend(request: &Request, answer: &mut Answer) {
        if done(request, answer, &[Call::Mend]) {
            keep_pair(request, answer);
        }
    }
}

/// A wrong count at the block's own erase is put right.
struct OwnBlockOnly;

impl Rules for OwnBlockOnly {
    fn pair_after(kept: Pair, block: u8, before: u32, count: u32) -> Pair {
        match block == kept.1 {
            true => (count, block),
            false => Correct::pair_after(kept, block, before, count),
        }
    }
}

struct BlockInSixBits;

impl Rules for BlockInSixBits {
    fn pair_after(kept: Pair, block: u8, before: u32, count: u32) -> Pair {
        Correct::pair_after(kept, block % 64, before, count)
    }
}

/// Of the pair alone.
struct HighByteFirst;

impl Rules for HighByteFirst {
    fn amend(request: &Request, answer: &mut Answer) {
        if done(request, answer, &[Call::Refresh]) {
            answer.parts.wear[260..264].reverse();
        }
    }
}

struct BlockFirst;

impl Rules for BlockFirst {
    fn amend(request: &Request, answer: &mut Answer) {
        if done(request, answer, &[Call::Refresh]) {
            answer.parts.wear[260..265].rotate_right(1);
        }
    }
}

struct HighestBlock;

impl Rules for HighestBlock {
    fn refreshed(counters: &[u32]) -> Pair {
        let (highest, _) = fresh_pair(counters);
        let last = counters.iter().rposition(|&count| count == highest);
        (highest, last.unwrap_or(0) as u8)
    }
}

struct ButTheLast;

impl Rules for ButTheLast {
    fn refreshed(counters: &[u32]) -> Pair {
        fresh_pair(&counters[..64])
    }
}

struct FirstBlocks;

impl Rules for FirstBlocks {
    fn refreshed(counters: &[u32]) -> Pair {
        fresh_pair(&counters[..32])
    }
}

struct ButTheSpare;

impl Rules for ButTheSpare {
    fn refreshed(counters: &[u32]) -> Pair {
        let (highest, block) = fresh_pair(&counters[1..]);
        (highest, block + 1)
    }
}

struct UpdatesOnly;

impl Rules for UpdatesOnly {
    fn amend(request: &Request, answer: &mut Answer) {
        let kept = pair::<Correct>(&request.parts.wear);
        if done(request, answer, &[Call::Refresh]) && kept > pair::<Correct>(&answer.parts.wear) {
            keep_pair(request, answer);
        }
    }
}

struct ClearsCounters;

impl Rules for ClearsCounters {
    fn amend(request: &Request, answer: &mut Answer) {
        if done(request, answer, &[Call::Refresh]) {
            answer.parts.wear[..260].fill(0);
        }
    }
}

struct AnyLength;

impl Rules for AnyLength {
    fn amend(request: &Request, answer: &mut Answer) {
        if request.call == Call::Refresh {
            answer.numbers.returned = 0;
        }
    }
}

struct LimitOfPair;

impl Rules for LimitOfPair {
    fn amend(request: &Request, answer: &mut Answer) {
        let begun = request.call == Call::Run && request.place == 0;
        if !begun || !matches!(answer.numbers.returned, 0 | 12) {
            return;
        }
        let (highest, _) = pair::<Correct>(&request.parts.wear);
        if u64::from(highest) + 2 > u64::from(request.wear_limit) {
            answer.numbers = Default::default();
            answer.numbers.returned = Refusal::Worn as u32;
            answer.parts = request.parts.clone();
        }
    }
}

struct RefusedAfresh;

impl Rules for RefusedAfresh {
    fn amend(request: &Request, answer: &mut Answer) {
        let lent = request.parts.wear.len() == 265;
        if answer.numbers.returned != 0 && lent {
            answer.parts.wear = right(&answer.parts.wear);
        }
    }
}
