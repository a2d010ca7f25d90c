//! What a call may do to the record of erases.

use crate::checks::tally::ensure;
use crate::simulator::flash::Flash;
use crate::simulator::request::{Answer, Call, Request};
use crate::simulator::rules::{Correct, Rules};
use crate::simulator::steps::{all_steps, Step};
use crate::simulator::wear::{counters, fresh_pair, pair};

type Outcome = Result<(), String>;

/// The blocks that a call erased by the numbers that it returned: a run takes
/// its steps in order, and a recovery erases the unfinished block.
pub fn blocks_erased(request: &Request, answer: &Answer) -> Vec<usize> {
    let numbers = &answer.numbers;
    if request.call == Call::Mend {
        let flash = Flash::new(request.sizes, &request.parts.store, &request.parts.marks);
        let unfinished = (0..=request.sizes.data_blocks()).find(|&block| flash.unfinished(block));
        return unfinished
            .filter(|_| numbers.erases > 0)
            .into_iter()
            .collect();
    }
    let steps = all_steps(&request.sizes).into_iter();
    let taken = steps
        .skip(request.place as usize)
        .take(numbers.steps as usize);
    let erased = |step| match step {
        Step::Erase { block } => Some(block),
        _ => None,
    };
    taken.filter_map(erased).collect()
}

/// How many more erases the most worn block could take beside those of the
/// move, by the limit; none if it has passed.
pub fn room_left(request: &Request) -> Option<u32> {
    let counters = counters::<Correct>(&request.parts.wear);
    let left = |block: usize| {
        let erases = Correct::erases_of(request, block);
        let worn = counters[block].checked_add(erases)?;
        request.wear_limit.checked_sub(worn)
    };
    let left: Option<Vec<u32>> = Correct::blocks_worn(request).map(left).collect();
    left?.into_iter().min()
}

/// Each counter rises by the erases of its block, unless it comes to its end,
/// and none falls. While none is at its end, they rise by the erases reported,
/// all together. From a right pair comes a right pair. A refusal leaves the
/// record.
pub fn right_record(request: &Request, answer: &Answer) -> Outcome {
    if answer.numbers.returned != 0 {
        let stays = answer.parts.wear == request.parts.wear;
        return ensure(stays, || "a refusal changes the record".into());
    }
    if !matches!(request.call, Call::Run | Call::Mend) {
        return Ok(());
    }
    let before = counters::<Correct>(&request.parts.wear);
    let after = counters::<Correct>(&answer.parts.wear);
    let erased = blocks_erased(request, answer);
    let mut rises = vec![];
    for (block, (&before, &after)) in before.iter().zip(&after).enumerate() {
        let erases = erased.iter().filter(|&&other| other == block).count() as u32;
        let due = erases.min(u32::MAX - before);
        ensure(after >= before && after - before == due, || {
            format!("the counter of block {block} is {after}, was {before}, and {erases} erases")
        })?;
        rises.push(u64::from(after - before));
    }
    let right = pair::<Correct>(&request.parts.wear) == fresh_pair(&before);
    let left = pair::<Correct>(&answer.parts.wear);
    ensure(!right || left == fresh_pair(&after), || {
        format!("the pair is {left:?}, and was right, for {after:?}")
    })?;
    let at_end = after.contains(&u32::MAX);
    let rise: u64 = rises.iter().sum();
    ensure(at_end || rise == u64::from(answer.numbers.erases), || {
        let erases = answer.numbers.erases;
        format!("the counters rise by {rise}, and {erases} erases are reported")
    })
}
