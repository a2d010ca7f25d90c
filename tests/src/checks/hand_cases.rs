//! The worked cases P1 to P11 (docs/RULES.md, section 10).

use super::tally::{ensure, same, Tally};
use crate::scene::Scene;
use crate::simulator::calls::answer;
use crate::simulator::cuts::tear;
use crate::simulator::flash::Flash;
use crate::simulator::request::{Call, Numbers, SIZED_CALLS};
use crate::simulator::sizes::Sizes;

type Outcome = Result<(), String>;

pub fn check(tally: &mut Tally) {
    tally.check("P1", split_gives(&[0, 2, 1, 3], &[1, 0, 0, 1]));
    tally.check("P2", split_gives(&[0, 3, 2, 1], &[0, 1, 0, 1]));
    tally.check("P3", pages_of_first_case());
    tally.check("P4", smallest_move());
    tally.check("P5", repeated_entry());
    tally.check("P6", data_blocks_give(0, 1));
    tally.check("P7 n = 65", data_blocks_give(65, 1));
    tally.check("P7 n = 64", data_blocks_give(64, 0));
    tally.check("P8", last_place());
    tally.check("P9", torn_erase(255));
    tally.check("P9 with a mark of 100", torn_erase(100));
    tally.check("P10", recovery_after_finish());
    tally.check("P11", no_budget());
    tally.check("pins", pins());
    tally.check("pinned pages travel", pinned_pages_travel());
    tally.check("written bytes", bytes_counted());
    tally.check("the most bytes", most_bytes());
    tally.check("bytes that no move has left", nonsense_bytes());
}

fn sizes(n: u32, m: u32) -> Sizes {
    Sizes {
        n,
        m,
        page_bytes: 1,
        s: 0,
    }
}

/// The step program's case: n = 3, m = 1, list 1 2 0, originals 1 2 4.
fn program_case() -> Scene {
    Scene::at_rest(sizes(3, 1), vec![1, 2, 0], vec![1, 2, 4])
}

fn split_gives(list: &[u16], due: &[u8]) -> Outcome {
    let scene = Scene::at_rest(sizes(2, 2), list.to_vec(), vec![0; 4]);
    let split = answer(&scene.request(Call::Split));
    same("the number", split.numbers.returned, 0)?;
    same("sets", &split.parts.sets[..], due)
}

fn pages_of_first_case() -> Outcome {
    let mut scene = Scene::at_rest(sizes(2, 2), vec![0, 2, 1, 3], vec![1, 2, 4, 8]);
    scene.run(0, 6);
    same(
        "store after the forward pass",
        &scene.flash.store[..],
        &[6, 1, 4, 8, 255, 255],
    )?;
    let last = scene.run(6, 6);
    same("finished", last.numbers.finished, 1)?;
    same(
        "store at the end",
        &scene.flash.store[..],
        &[255, 255, 1, 4, 2, 8],
    )
}

fn smallest_move() -> Outcome {
    let mut scene = Scene::at_rest(sizes(1, 1), vec![0], vec![7]);
    let due = Numbers {
        place: 4,
        steps: 4,
        writes: 2,
        erases: 2,
        finished: 1,
        written_bytes: 2,
        pages_read: 2,
        ..Numbers::default()
    };
    same("the answer", scene.run(0, u32::MAX).numbers, due)
}

fn repeated_entry() -> Outcome {
    let mut scene = Scene::at_rest(sizes(2, 1), vec![0, 1], vec![1, 2]);
    scene.list = vec![0, 0];
    for call in [Call::Split, Call::Run, Call::Read] {
        let request = scene.request(call);
        let refused = answer(&request);
        same("the number", refused.numbers.returned, 3)?;
        ensure(refused.parts == request.parts, || {
            "lent bytes changed".into()
        })?;
    }
    Ok(())
}

fn data_blocks_give(n: u32, due: u32) -> Outcome {
    let count = n as usize;
    let mut scene = Scene::at_rest(sizes(1, 1), vec![0], vec![0]);
    scene.sizes = sizes(n, 1);
    scene.list = (0..n as u16).collect();
    scene.pins = vec![0; count];
    scene.sets = vec![0; count];
    scene.flash = Flash::at_rest(scene.sizes, &vec![0; count]);
    for call in SIZED_CALLS {
        let given = answer(&scene.request(call)).numbers.returned;
        same(&format!("the number of {call:?}"), given, due)?;
    }
    Ok(())
}

fn last_place() -> Outcome {
    let mut scene = program_case();
    scene.run(0, 12);
    let due = Numbers {
        place: 12,
        finished: 1,
        ..Numbers::default()
    };
    same("at place 12", scene.run(12, 5).numbers, due)?;
    let refused = Numbers {
        returned: 5,
        ..Numbers::default()
    };
    same("at place 13", scene.run(13, 5).numbers, refused)
}

fn torn_erase(mark: u8) -> Outcome {
    let mut scene = program_case();
    scene.run(0, 3);
    tear(&mut scene.flash, (2, mark), |_| vec![0x5a]);
    let read = answer(&scene.read_request(1));
    same(
        "read",
        (read.numbers.count, &read.parts.work[..]),
        (3, &[2]),
    )?;
    let mended = scene.mend();
    same(
        "place and erases",
        (mended.numbers.place, mended.numbers.erases),
        (4, 1),
    )?;
    ensure(scene.flash.is_blank(2), || "block 2 is not blank".into())
}

fn recovery_after_finish() -> Outcome {
    let mut scene = program_case();
    scene.run(0, 12);
    for _ in 0..2 {
        let mended = scene.mend();
        same(
            "place and erases",
            (mended.numbers.place, mended.numbers.erases),
            (12, 1),
        )?;
    }
    same("a second move", scene.run(0, 12).numbers.returned, 5)?;
    same("the end", scene.run(12, 12).numbers.finished, 1)
}

/// Pages 1 and 2 trade places: 0 and 3 may be pinned, they may not.
fn pins() -> Outcome {
    let mut scene = Scene::at_rest(sizes(2, 2), vec![0, 2, 1, 3], vec![1, 2, 4, 8]);
    let calls = [Call::Split, Call::Run, Call::Read];
    let numbers = |scene: &Scene| calls.map(|call| answer(&scene.request(call)).numbers.returned);
    scene.pins = vec![1, 0, 0, 200];
    same("pinned pages stay", numbers(&scene), [0, 0, 0])?;
    let sets = answer(&scene.request(Call::Split)).parts.sets;
    same("sets", &sets[..], &[1, 0, 0, 1])?;
    scene.pins = vec![0, 2, 0, 0];
    same("a pinned page moves", numbers(&scene), [11, 11, 11])?;
    scene.sets = vec![2, 0, 0, 1];
    same("11 before 4", numbers(&scene), [11, 11, 11])?;
    scene.list = vec![0, 2, 2, 3];
    same("3 before 11", numbers(&scene), [3, 3, 3])?;
    scene.pins.pop();
    same("one pin too few", numbers(&scene), [2, 2, 2])
}

/// In mid-move page 3 is not where it lay, but it can be read, and ends there.
fn pinned_pages_travel() -> Outcome {
    let mut scene = Scene::at_rest(sizes(2, 2), vec![0, 2, 1, 3], vec![1, 2, 4, 8]);
    scene.pins = vec![1, 0, 0, 200];
    scene.run(0, 6);
    ensure(scene.flash.is_blank(5), || "slot 5 is not blank".into())?;
    let read = answer(&scene.read_request(3));
    same(
        "read",
        (read.numbers.count, &read.parts.work[..]),
        (1, &[8]),
    )?;
    scene.run(6, 6);
    same("page 3 at the end", scene.flash.page(5), &[8])
}

/// Two pages trade places, one half 255 and one 255 throughout: their sum has no
/// 255, so that the four pages written count 2, 0, 1 and 0.
fn bytes_counted() -> Outcome {
    let sizes = Sizes {
        page_bytes: 2,
        ..sizes(2, 1)
    };
    let mut scene = Scene::at_rest(sizes, vec![1, 0], vec![255, 3, 255, 255]);
    for (original, due) in [(0, 1), (1, 0)] {
        let read = answer(&scene.read_request(original)).numbers;
        same("read", (read.count, read.written_bytes), (1, due))?;
    }
    let at_once = scene.clone().run(0, u32::MAX).numbers;
    same("the whole move", at_once.written_bytes, 3)?;
    let steps: Vec<u32> = (0..8)
        .map(|place| scene.run(place, 1).numbers.written_bytes)
        .collect();
    same("step by step", &steps[..], &[2, 0, 0, 0, 1, 0, 0, 0])?;
    let refused = scene.run(7, 1).numbers;
    same("refused", (refused.returned, refused.written_bytes), (5, 0))
}

/// 2 x n x m x P, met by pages of zeros.
fn most_bytes() -> Outcome {
    let sizes = Sizes {
        page_bytes: 4096,
        ..sizes(64, 64)
    };
    let list = (0..64 * 64).map(|k| (k * 5 + 64) % (64 * 64)).collect();
    let mut scene = Scene::at_rest(sizes, list, vec![0; 64 * 64 * 4096]);
    let whole = scene.run(0, u32::MAX).numbers;
    same("the total", whole.written_bytes, 33_554_432)
}

/// Pages are summed by the rules even if block 0 does not hold c(1).
fn nonsense_bytes() -> Outcome {
    let mut scene = program_case();
    scene.run(0, 2);
    scene.flash.put_page(0, 1, &[0x77]);
    let read = answer(&scene.read_request(0));
    same(
        "original 0",
        (read.numbers.count, &read.parts.work[..]),
        (2, &[0x77 ^ 4]),
    )?;
    let written = scene.run(2, 1);
    same("c(2)", &written.parts.work[..], &[2 ^ 0x77 ^ 4])?;
    scene.run(3, 3);
    let last = scene.run(6, 1);
    same(
        "original 1",
        &last.parts.work[..],
        &[(2 ^ 0x77 ^ 4) ^ 0x77 ^ 4],
    )
}

fn no_budget() -> Outcome {
    let mut scene = program_case();
    let before = scene.flash.clone();
    let stopped = scene.run(0, 0);
    same("the answer", stopped.numbers, Numbers::default())?;
    ensure(scene.flash == before, || "the flash changed".into())
}
