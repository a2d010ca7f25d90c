//! How many stored pages a run reads: by hand, and by what the pages written show.

use super::tally::{ensure, same, Tally};
use crate::random::{small_lists, Random};
use crate::scene::{small_shapes, Scene};
use crate::simulator::sizes::{Sizes, UNWRITTEN};
use crate::simulator::steps::{all_steps, Step};

type Outcome = Result<(), String>;

const X: u16 = u16::MAX;

pub fn check(tally: &mut Tally, random: &mut Random) {
    // The pages of the forward pass, then those of the backward pass.
    let cases: [([u16; 3], [u32; 6]); 4] = [
        ([1, 2, 0], [2, 3, 1, 3, 2, 2]),
        ([1, X, 0], [2, 2, 1, 0, 2, 2]),
        ([1, 2, X], [1, 2, 0, 3, 2, 0]),
        ([X, 2, 0], [1, 1, 1, 3, 0, 2]),
    ];
    for (list, due) in cases {
        tally.check(&format!("pages read for {list:?}"), by_hand(list, due));
    }
    tally.check("the most pages read with one block", most_of_one_block());
    for (n, m) in small_shapes(5) {
        let lists = small_lists((n * m) as usize, 4, random);
        let outcome = lists.into_iter().try_for_each(|list| {
            shown(n, m, list.clone(), random).map_err(|why| format!("list {list:?}: {why}"))
        });
        tally.check(&format!("pages read of n = {n}, m = {m}"), outcome);
    }
}

fn sizes(n: u32, m: u32, page_bytes: u32, s: u32) -> Sizes {
    Sizes {
        n,
        m,
        page_bytes,
        s,
    }
}

/// The step program's case, whose fourth page meets the bound of n.
fn by_hand(list: [u16; 3], due: [u32; 6]) -> Outcome {
    let mut scene = Scene::at_rest(sizes(3, 1, 1, 0), list.to_vec(), vec![1, 2, 4]);
    let whole = scene.clone().run(0, u32::MAX).numbers.pages_read;
    same("the whole move", whole, due.iter().sum())?;
    let steps: Vec<u32> = (0..12)
        .map(|place| scene.run(place, 1).numbers.pages_read)
        .collect();
    let writes: Vec<u32> = steps.iter().copied().step_by(2).collect();
    same("page by page", &writes[..], &due[..])?;
    let erases: u32 = steps.iter().skip(1).step_by(2).sum();
    same("the erases", erases, 0)
}

/// 2 x n x n x m, met where every page is copied.
fn most_of_one_block() -> Outcome {
    let mut scene = Scene::at_rest(sizes(1, 3, 1, 0), vec![2, 0, 1], vec![1, 2, 4]);
    same("reads", scene.run(0, u32::MAX).numbers.pages_read, 6)
}

/// At every place, each written page has a bit of its own: the page that a step
/// writes then shows of how many it is the sum. The next bit is in none of them
/// and shows whether 255s turned all over.
fn shown(n: u32, m: u32, list: Vec<u16>, random: &mut Random) -> Outcome {
    let slots = ((n + 1) * m) as usize;
    let shape = sizes(n, m, slots as u32 / 8 + 1, random.below(3) as u32);
    let originals = random.bytes(shape.originals() * shape.bytes());
    let mut scene = Scene::at_rest(shape, list, originals);
    let mut total = 0;
    for (place, step) in all_steps(&shape).into_iter().enumerate() {
        let mut bits = scene.clone();
        for slot in (0..slots).filter(|&slot| scene.flash.marks[slot] != UNWRITTEN) {
            let mut page = vec![0; shape.bytes()];
            page[slot / 8] = 1 << (slot % 8);
            bits.flash.put_page(slot, scene.flash.marks[slot], &page);
        }
        let shown = bits.run(place as u32, 1);
        let ran = scene.run(place as u32, 1);
        same(
            "the number",
            (shown.numbers.returned, ran.numbers.returned),
            (0, 0),
        )?;
        let page = shown.parts.work;
        let bit = |bit: usize| page[bit / 8] >> (bit % 8) & 1 == 1;
        let due = match step {
            Step::Erase { .. } => 0,
            _ => (0..slots).filter(|&slot| bit(slot) != bit(slots)).count() as u32,
        };
        let reads = [shown.numbers.pages_read, ran.numbers.pages_read];
        same(&format!("reads at place {place}"), reads, [due, due])?;
        ensure(due <= n, || format!("{due} pages read at place {place}"))?;
        total += due;
    }
    ensure(total <= 2 * n * n * m, || format!("{total} pages read"))
}
