//! The highest counter kept at hand, worked by hand.

use super::tally::{same, Tally};
use crate::random::Random;
use crate::scene::Scene;
use crate::simulator::calls::answer;
use crate::simulator::request::Call;
use crate::simulator::rules::{Correct, Rules};
use crate::simulator::sizes::Sizes;
use crate::simulator::wear::{counters, fresh_pair, pair, record, record_with, Pair, COUNTERS};

type Outcome = Result<(), String>;

pub fn check(tally: &mut Tally, random: &mut Random) {
    tally.check("pairs after an erase", updates());
    tally.check("the bytes of a pair", bytes_of_pair());
    tally.check("pairs of a whole move", whole_move());
    tally.check("pairs at full counters", full_counters());
    tally.check("pairs made afresh", afresh());
    tally.check("right pairs stay right", stay_right(random));
}

const END: u32 = u32::MAX;

fn updates() -> Outcome {
    let cases: [(Pair, u8, u32, Pair); 9] = [
        ((5, 3), 1, 4, (5, 3)),
        ((5, 3), 1, 5, (5, 1)),
        ((5, 3), 3, 5, (5, 3)),
        ((5, 3), 4, 5, (5, 3)),
        ((5, 3), 4, 6, (6, 4)),
        ((5, 3), 1, 6, (6, 1)),
        ((5, 255), 64, 5, (5, 64)),
        ((END, 9), 8, END, (END, 8)),
        ((END, 9), 10, END, (END, 9)),
    ];
    for (kept, block, count, due) in cases {
        let given = Correct::pair_after(kept, block, count - 1, count);
        same(&format!("{kept:?}, block {block} at {count}"), given, due)?;
    }
    Ok(())
}

/// n = 3, m = 1, list 1 2 0.
fn scene_with(counts: &[u32], kept: Option<Pair>) -> Scene {
    let sizes = Sizes {
        n: 3,
        m: 1,
        page_bytes: 1,
        s: 0,
    };
    let mut scene = Scene::at_rest(sizes, vec![1, 2, 0], vec![1, 2, 4]);
    let mut counters = vec![0; COUNTERS];
    counters[..counts.len()].copy_from_slice(counts);
    scene.wear = match kept {
        Some(kept) => record_with::<Correct>(&counters, kept),
        None => record::<Correct>(&counters),
    };
    scene
}

fn bytes_of_pair() -> Outcome {
    let scene = scene_with(&[1, 0x0403_0201], None);
    same("the last five bytes", &scene.wear[260..], &[1, 2, 3, 4, 1])
}

/// The blocks erased are 1 2 3 2 1 0.
fn whole_move() -> Outcome {
    let dues = [(1, 1), (1, 1), (1, 1), (2, 2), (2, 1), (2, 1)];
    let mut scene = scene_with(&[], None);
    same("at first", pair::<Correct>(&scene.wear), (0, 0))?;
    for (turn, due) in dues.into_iter().enumerate() {
        scene.run(2 * turn as u32, 2);
        same(
            &format!("after erase {turn}"),
            pair::<Correct>(&scene.wear),
            due,
        )?;
    }
    let mut at_once = scene_with(&[], None);
    at_once.run(0, u32::MAX);
    same("at once", at_once.wear, scene.wear)?;
    // A pair that is too high stays, one that is too low is caught up with.
    for (kept, due) in [((9, 200), (9, 200)), ((2, 200), (2, 1)), ((0, 200), (2, 1))] {
        let mut scene = scene_with(&[], Some(kept));
        scene.run(0, u32::MAX);
        same(&format!("from {kept:?}"), pair::<Correct>(&scene.wear), due)?;
    }
    Ok(())
}

fn full_counters() -> Outcome {
    let counts = [END, END, END, END];
    for (kept, due) in [
        ((END, 3), (END, 0)),
        ((END, 0), (END, 0)),
        ((7, 5), (END, 0)),
        ((END, 255), (END, 0)),
    ] {
        let mut scene = scene_with(&[], None);
        scene.run(0, 1);
        scene.wear = scene_with(&counts, Some(kept)).wear;
        let rest = scene.run(1, u32::MAX).numbers;
        same("erases", rest.erases, 6)?;
        same(&format!("from {kept:?}"), pair::<Correct>(&scene.wear), due)?;
    }
    Ok(())
}

fn afresh() -> Outcome {
    for (counts, due) in [
        ([0; COUNTERS].to_vec(), (0, 0)),
        (vec![3, 9, 9, 1], (9, 1)),
        (vec![9, 9], (9, 0)),
        ([vec![0; 64], vec![END]].concat(), (END, 64)),
    ] {
        let scene = scene_with(&counts, Some((4, 77)));
        let given = answer(&scene.request(Call::Refresh));
        same("the number", given.numbers.returned, 0)?;
        same("the pair", pair::<Correct>(&given.parts.wear), due)?;
        same("the counters", &given.parts.wear[..260], &scene.wear[..260])?;
    }
    let mut request = scene_with(&[], None).request(Call::Refresh);
    for length in [0, 260, 264, 266] {
        request.parts.wear = vec![0; length];
        same("a wrong length", answer(&request).numbers.returned, 2)?;
    }
    Ok(())
}

/// Over runs and recoveries, with few counts.
fn stay_right(random: &mut Random) -> Outcome {
    for _ in 0..200 {
        let counts: Vec<u32> = (0..COUNTERS).map(|_| random.below(3) as u32).collect();
        let mut scene = scene_with(&counts, None);
        for place in 0..12 {
            scene.run(place, 1);
            if random.one_in(2) {
                scene.wear = answer(&scene.request(Call::Mend)).parts.wear;
            }
            let due = fresh_pair(&counters::<Correct>(&scene.wear));
            same("the pair", pair::<Correct>(&scene.wear), due)?;
        }
    }
    Ok(())
}
