//! The examples printed in the papers.
//!
//! Each original is a single bit, so that a page shows which originals it sums.

use super::tally::{ensure, same, Tally};
use super::trace::{all_moved, all_readable, ended};
use crate::scene::Scene;
use crate::simulator::calls::move_of;
use crate::simulator::dropping::stored;
use crate::simulator::reading::terms_of;
use crate::simulator::request::Call;
use crate::simulator::rules::Correct;
use crate::simulator::sizes::Sizes;

type Outcome = Result<(), String>;

/// "Storage Coding", Example 3: block i moves to entry i.
pub const EIGHT: [u16; 8] = [3, 6, 8, 1, 2, 5, 4, 7];
/// "Data Movement in Flash Memories", Example 10: the cycles of Figure 1 (a).
pub const FOURTEEN: [u16; 14] = [9, 4, 5, 14, 7, 13, 3, 10, 6, 12, 11, 1, 2, 8];
/// "Data Movement and Aggregation", Example 5: the set of hearts.
pub const TWENTY_ONE: [u16; 21] = [
    6, 1, 10, 12, 11, 9, 5, 17, 16, 14, 13, 19, 15, 8, 21, 20, 2, 18, 7, 3, 4,
];

/// Figure 2 of "Storage Coding": what is written into blocks 0 to 7, then 8 to 1.
const EIGHT_CODED: [&[usize]; 8] = [
    &[1, 4],
    &[2, 5],
    &[3, 1],
    &[4, 7],
    &[5, 6],
    &[6],
    &[7, 8],
    &[8],
];
const EIGHT_FINAL: [usize; 8] = [3, 8, 2, 6, 7, 1, 5, 4];
/// The column "Operation" of the same figure: the blocks summed for each write.
const EIGHT_SUMMED: [&[usize]; 16] = [
    &[1, 4],
    &[2, 5],
    &[3, 0, 4],
    &[4, 7],
    &[5, 6],
    &[6],
    &[7, 8],
    &[8],
    &[7, 6, 3, 0, 2],
    &[6, 3, 0, 2, 8],
    &[5, 4, 1],
    &[4, 1, 6],
    &[3, 0, 2, 8],
    &[2, 8],
    &[1, 6],
    &[0, 3],
];

pub fn check(tally: &mut Tally) {
    for i in 0..8 {
        let name = format!("Storage Coding, forward write {}", i + 1);
        tally.check(&name, eight_writes(2 * i, i, EIGHT_CODED[i]));
        let name = format!("Storage Coding, backward write {}", i + 1);
        tally.check(&name, eight_writes(16 + 2 * i, 8 - i, &[EIGHT_FINAL[i]]));
    }
    for write in 0..16 {
        let name = format!("Storage Coding, operation of write {}", write + 1);
        tally.check(&name, eight_sums(write));
    }
    let lists = [
        ("Storage Coding, 8 blocks", &EIGHT[..]),
        ("Data Movement, 14 blocks", &FOURTEEN[..]),
        ("Data Movement and Aggregation, 21 blocks", &TWENTY_ONE[..]),
    ];
    for (name, blocks) in lists {
        tally.check(name, whole_move(blocks));
    }
    tally.check(
        "Data Movement, facts stated beside the figure",
        fourteen_as_stated(),
    );
}

fn bits(blocks: usize, members: &[usize]) -> Vec<u8> {
    let mut page = vec![0; blocks.div_ceil(8)];
    for member in members {
        page[(member - 1) / 8] ^= 1 << ((member - 1) % 8);
    }
    page
}

fn scene_of(block_moves: &[u16]) -> Scene {
    let n = block_moves.len();
    let sizes = Sizes {
        n: n as u32,
        m: 1,
        page_bytes: n.div_ceil(8) as u32,
        s: 1,
    };
    let list = block_moves.iter().map(|block| block - 1).collect();
    let originals = (1..=n).flat_map(|i| bits(n, &[i])).collect();
    Scene::at_rest(sizes, list, originals)
}

/// The write at this place puts the sum of `members` into `block`.
fn eight_writes(place: usize, block: usize, members: &[usize]) -> Outcome {
    let mut scene = scene_of(&EIGHT);
    scene.run(0, place as u32);
    ensure(scene.flash.is_blank(block), || {
        format!("block {block} is not blank before")
    })?;
    let written = scene.run(place as u32, 1);
    same("writes", written.numbers.writes, 1)?;
    same("the page", scene.flash.page(block), &bits(8, members)[..])?;
    same("the work page", &written.parts.work, &bits(8, members))
}

/// The blocks that a write sums are those of the figure.
fn eight_sums(write: usize) -> Outcome {
    let mut scene = scene_of(&EIGHT);
    scene.run(0, 2 * write as u32);
    let moves = move_of::<Correct>(&scene.request(Call::Run));
    let read = |block: usize| stored(&terms_of::<Correct>(&moves, &scene.flash, block - 1));
    let mut summed = match write {
        0..8 => vec![write + 1],
        _ => read(EIGHT_FINAL[write - 8]),
    };
    if write < 8 && EIGHT_CODED[write].len() == 2 {
        summed.extend(read(EIGHT_CODED[write][1]));
    }
    let mut due = EIGHT_SUMMED[write].to_vec();
    due.sort();
    summed.sort();
    same("the blocks summed", summed, due)?;
    let reads = scene.run(2 * write as u32, 1).numbers.pages_read;
    same("pages read", reads as usize, EIGHT_SUMMED[write].len())
}

/// Follows the moves backwards from the list alone.
fn block_moving_to(block_moves: &[u16], block: usize) -> usize {
    1 + block_moves
        .iter()
        .position(|&to| to as usize == block)
        .expect("a permutation")
}

fn is_top(block_moves: &[u16], block: usize) -> bool {
    let mut other = block_moves[block - 1] as usize;
    while other != block {
        if other > block {
            return false;
        }
        other = block_moves[other - 1] as usize;
    }
    true
}

/// Every page written is c(i) or the destination's original, every original
/// can be read at every place, and the move ends right.
fn whole_move(block_moves: &[u16]) -> Outcome {
    let n = block_moves.len();
    let mut scene = scene_of(block_moves);
    for place in 0..4 * n {
        let written = scene.run(place as u32, 1).parts.work;
        let i = place / 2 + 1;
        let members = match (place % 2, i <= n) {
            (1, _) => None,
            (_, true) if is_top(block_moves, i) => Some(vec![i]),
            (_, true) => Some(vec![i, block_moving_to(block_moves, i)]),
            (_, false) => Some(vec![block_moving_to(block_moves, 2 * n + 1 - i)]),
        };
        if let Some(members) = members {
            same(
                &format!("the page of step {place}"),
                written,
                bits(n, &members),
            )?;
        }
        all_readable(&scene)?;
    }
    all_moved(&scene)?;
    ended(&scene.sizes, &scene.flash)
}

/// Example 8 and Example 10 state some moves and the tails of the cycles.
fn fourteen_as_stated() -> Outcome {
    let stated = [(1, 9), (2, 4), (14, 8), (12, 1), (13, 2), (4, 14)];
    for (from, to) in stated {
        same(&format!("the move of block {from}"), FOURTEEN[from - 1], to)?;
    }
    let tops: Vec<usize> = (1..=14).filter(|&block| is_top(&FOURTEEN, block)).collect();
    same("the tails", tops, vec![7, 11, 14])
}
