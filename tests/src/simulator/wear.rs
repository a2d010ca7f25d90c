//! The record of erases: a counter for each of blocks 0 to 64, however many
//! blocks the store has, and behind them a pair: the highest count with its
//! block, the lowest if there are several.

use super::request::Request;
use super::rules::Rules;

pub const COUNTERS: usize = 65;
const COUNTER_BYTES: usize = 4 * COUNTERS;
pub const WEAR_BYTES: usize = COUNTER_BYTES + 5;

/// The highest count, and the block that has it. A caller may lend a wrong one.
pub type Pair = (u32, u8);

/// The counters of a record as lent.
pub fn counters<R: Rules>(wear: &[u8]) -> Vec<u32> {
    let counter = |bytes: &[u8]| R::counter_of([bytes[0], bytes[1], bytes[2], bytes[3]]);
    wear.chunks_exact(4).take(COUNTERS).map(counter).collect()
}

/// The pair of a record as lent; a mover may take one that is too short.
pub fn pair<R: Rules>(wear: &[u8]) -> Pair {
    let mut bytes = wear.to_vec();
    bytes.resize(WEAR_BYTES, 0);
    let [low, second, third, high, block] = bytes[COUNTER_BYTES..] else {
        return (0, 0);
    };
    (R::counter_of([low, second, third, high]), block)
}

/// The pair that these counters have.
pub fn fresh_pair(counters: &[u32]) -> Pair {
    let highest = counters.iter().copied().max().unwrap_or(0);
    let block = counters.iter().position(|&count| count == highest);
    (highest, block.unwrap_or(0) as u8)
}

/// A record with its pair.
pub fn record<R: Rules>(counters: &[u32]) -> Vec<u8> {
    record_with::<R>(counters, fresh_pair(counters))
}

/// A record with any pair.
pub fn record_with<R: Rules>(counters: &[u32], (highest, block): Pair) -> Vec<u8> {
    let mut wear: Vec<u8> = counters
        .iter()
        .flat_map(|&count| R::counter_bytes(count))
        .collect();
    wear.extend(R::counter_bytes(highest));
    wear.push(block);
    wear
}

fn put(wear: &mut [u8], record: Vec<u8>) {
    for (to, from) in wear.iter_mut().zip(record) {
        *to = from;
    }
}

/// Adds the erases that a call finished, one after the other.
pub fn count_erases<R: Rules>(wear: &mut [u8], erased: &[usize]) {
    let mut counters = counters::<R>(wear);
    let mut pair = pair::<R>(wear);
    for &block in erased {
        let counted = R::counter_raised(block);
        if let Some(count) = counters.get_mut(counted) {
            let before = *count;
            *count = R::one_more(before);
            pair = R::pair_after(pair, block as u8, before, *count);
        }
    }
    put(wear, record_with::<R>(&counters, pair));
}

/// Makes the pair afresh.
pub fn refresh<R: Rules>(wear: &mut [u8]) {
    let counters = counters::<R>(wear);
    put(wear, record_with::<R>(&counters, R::refreshed(&counters)));
}

/// Would an uncut move from here wear a block past the limit? Only a run from
/// place 0 is asked.
pub fn worn_out<R: Rules>(request: &Request) -> bool {
    let counters = counters::<R>(&request.parts.wear);
    R::looks_at_wear(request)
        && R::blocks_worn(request).any(|block| {
            let erases = R::erases_of(request, block);
            R::passes(counters[block], erases, request.wear_limit)
        })
}
