//! Dropped pages, worked by hand. X is an entry of 65535.

use super::tally::{ensure, same, Tally};
use super::trace::trace;
use crate::scene::Scene;
use crate::simulator::calls::answer;
use crate::simulator::request::{Call, Numbers};
use crate::simulator::sizes::Sizes;

type Outcome = Result<(), String>;

const X: u16 = u16::MAX;

pub fn check(tally: &mut Tally) {
    tally.check("completed lists", completed_lists());
    tally.check("X 2 X 0 is split like 1 2 3 0", split_of_completed());
    tally.check("bytes of every step", every_step());
    tally.check("a walk past a dropped page", walk_past());
    tally.check("a walk back that ends at one", walk_back_ends());
    tally.check("a walk on that ends at one", walk_on_ends());
    tally.check("a dropped page read", dropped_page_read());
    tally.check("dropped pages in refusals", refusals());
    tally.check("pages written as 255s", written_as_255s());
}

fn sizes(n: u32, m: u32) -> Sizes {
    Sizes {
        n,
        m,
        page_bytes: 1,
        s: 0,
    }
}

/// The step program's case with one entry dropped: the same moves.
fn program_case(dropped: usize) -> Scene {
    let mut list = vec![1, 2, 0];
    list[dropped] = X;
    Scene::at_rest(sizes(3, 1), list, vec![1, 2, 4])
}

fn completed_lists() -> Outcome {
    let cases: [(&[u16], &[usize]); 6] = [
        (&[1, 2, 0], &[1, 2, 0]),
        (&[1, X, 0], &[1, 2, 0]),
        (&[X, X, X], &[0, 1, 2]),
        (&[X, 2, X, 0], &[1, 2, 3, 0]),
        (&[3, X, X, 0], &[3, 1, 2, 0]),
        (&[X, 0, 1, X], &[2, 0, 1, 3]),
    ];
    for (list, due) in cases {
        let n = list.len() as u32;
        let scene = Scene::at_rest(sizes(n, 1), list.to_vec(), vec![0; list.len()]);
        same("completed", &scene.destinations()[..], due)?;
    }
    Ok(())
}

fn split_of_completed() -> Outcome {
    let scene = Scene::at_rest(sizes(2, 2), vec![X, 2, X, 0], vec![1, 2, 4, 8]);
    let split = answer(&scene.request(Call::Split));
    same("the number", split.numbers.returned, 0)?;
    same("sets", &split.parts.sets[..], &[0, 1, 0, 1])?;
    let lent = scene.request(Call::Split).parts.list;
    same("the lent list", split.parts.list, lent)
}

/// Each page written, of 1 X 0 and of 1 2 X with originals 1 2 4.
fn every_step() -> Outcome {
    let cases = [
        (program_case(1), [0x05, 0xfe, 0x04, 0xff, 0x01, 0x04]),
        (program_case(2), [0xfe, 0x03, 0xff, 0x02, 0x01, 0xff]),
        (program_case(0), [0xfb, 0xfd, 0x04, 0x02, 0xff, 0x04]),
    ];
    for (mut scene, due) in cases {
        trace(&scene)?;
        let written: Vec<u8> = (0..6)
            .map(|write| {
                let page = scene.run(2 * write, 1).parts.work[0];
                scene.run(2 * write + 1, 1);
                page
            })
            .collect();
        same("the pages written", &written[..], &due[..])?;
    }
    Ok(())
}

fn read_gives(scene: &Scene, k: usize, due: (u32, u8, u32)) -> Outcome {
    let read = answer(&scene.read_request(k));
    same("the number", read.numbers.returned, 0)?;
    let numbers = (
        read.numbers.count,
        read.parts.work[0],
        read.numbers.written_bytes,
    );
    same(
        &format!("count, page and bytes of original {k}"),
        numbers,
        due,
    )
}

/// Four blocks in one cycle, the first page dropped: block 2's page is c(2), c(1)
/// and the page in block 4, though c(2) and 255s would do.
fn walk_past() -> Outcome {
    let mut scene = Scene::at_rest(sizes(4, 1), vec![X, 2, 3, 0], vec![1, 2, 4, 8]);
    scene.run(0, 6);
    same(
        "the store",
        &scene.flash.store[..],
        &[0xf7, 0xfd, 0x06, 255, 8],
    )?;
    read_gives(&scene, 1, (3, 2, 1))?;
    scene.flash.put_page(0, 1, &[0x70]);
    read_gives(&scene, 1, (3, 0xfd ^ 0x70 ^ 8, 1))
}

/// Block 3 still holds 04, but its page is dropped: 255s end the walk.
fn walk_back_ends() -> Outcome {
    let mut scene = program_case(2);
    scene.run(0, 2);
    same("block 3", scene.flash.page(3), &[4])?;
    read_gives(&scene, 0, (1, 1, 1))?;
    scene.flash.put_page(3, 0, &[0x77]);
    read_gives(&scene, 0, (1, 1, 1))
}

/// Block 3 has the page that the dropped one left; what is stored there counts.
fn walk_on_ends() -> Outcome {
    let mut scene = program_case(1);
    scene.run(0, 8);
    same("block 3", scene.flash.page(3), &[255])?;
    read_gives(&scene, 0, (2, 1, 1))?;
    scene.flash.put_page(3, 2, &[0x77]);
    read_gives(&scene, 0, (2, 0xfe ^ 0x77, 1))
}

/// At every place, and after the refusals.
fn dropped_page_read() -> Outcome {
    let mut scene = program_case(1);
    for place in 0..=12 {
        read_gives(&scene, 1, (0, 255, 0))?;
        scene.run(place, 1);
    }
    scene.flash.marks.fill(1);
    let refused = answer(&scene.read_request(1));
    same("marks of no moment", refused.numbers.returned, 6)
}

fn refusals() -> Outcome {
    let mut scene = program_case(1);
    let calls = [Call::Split, Call::Run, Call::Read];
    let numbers = |scene: &Scene| calls.map(|call| answer(&scene.request(call)).numbers.returned);
    scene.pins = vec![0, 1, 0];
    same("a pinned page dropped", numbers(&scene), [11; 3])?;
    scene.pins = vec![1, 1, 0];
    same("another pinned page moves", numbers(&scene), [11; 3])?;
    scene.pins = vec![0; 3];
    for (list, due) in [
        ([X, X, X], [0; 3]),
        ([X, 0, 0], [3; 3]),
        ([X, 3, 0], [3; 3]),
        ([X, 65534, 0], [3; 3]),
    ] {
        scene.list = list.to_vec();
        same(&format!("{list:?}"), numbers(&scene), due)?;
    }
    let mut scene = Scene::at_rest(sizes(2, 2), vec![X, 2, X, 0], vec![1, 2, 4, 8]);
    scene.sets = vec![1, 0, 0, 1];
    same("sets of 0 2 1 3", numbers(&scene), [0, 4, 4])
}

/// They have a letter, so that they are not blank, and no byte that counts.
fn written_as_255s() -> Outcome {
    let mut scene = Scene::at_rest(sizes(2, 1), vec![X, X], vec![7, 9]);
    let whole = scene.run(0, u32::MAX).numbers;
    let due = Numbers {
        place: 8,
        steps: 8,
        writes: 4,
        erases: 4,
        finished: 1,
        ..Numbers::default()
    };
    same("the whole move", whole, due)?;
    same("the marks", &scene.flash.marks[..], &[255, 2, 2])?;
    ensure(!scene.flash.is_blank(1), || "block 1 is blank".into())?;
    same("the store", &scene.flash.store[..], &[255; 3])
}
