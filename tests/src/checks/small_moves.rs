//! Whole uncut moves: all small lists, and random bigger ones.

use super::tally::{ensure, same, Tally};
use super::trace::{all_moved, all_readable, ended, original_readable, trace};
use crate::random::{small_lists, Random};
use crate::scene::{small_shapes, Scene};
use crate::simulator::calls::answer;
use crate::simulator::flash::{add, Flash};
use crate::simulator::sizes::Sizes;
use crate::simulator::steps::marks_at;

type Outcome = Result<(), String>;

pub fn check(tally: &mut Tally, random: &mut Random) {
    for (n, m) in small_shapes(6) {
        let lists = small_lists((n * m) as usize, 4, random);
        let outcome = lists.into_iter().try_for_each(|list| {
            let s = random.below(3) as u32;
            let scene = random_scene(sizes(n, m, 1, s), list, random);
            check_move(&scene).map_err(|why| format!("list {:?}: {why}", scene.list))
        });
        tally.check(&format!("all lists of n = {n}, m = {m}"), outcome);
    }
    for round in 0..60 {
        let (n, m) = (random.between(1, 9), random.between(1, 9));
        let list = random.permutation(n * m);
        let list = random.dropping(list);
        let bytes = random.between(1, 5);
        let shape = sizes(n as u32, m as u32, bytes as u32, (round % 3) as u32);
        let scene = random_scene(shape, list, random);
        tally.check(
            &format!("random list of n = {n}, m = {m}"),
            check_move(&scene),
        );
    }
    for (n, m) in [(64, 1), (1, 64), (64, 64)] {
        for _ in 0..2 {
            tally.check(
                &format!("random list of n = {n}, m = {m}"),
                big_move(n, m, random),
            );
        }
        tally.check(&format!("marks of n = {n}, m = {m}"), marks_differ(n, m));
    }
    for (n, m) in (1..=7).flat_map(|n| (1..=7).map(move |m| (n, m))) {
        tally.check(&format!("marks of n = {n}, m = {m}"), marks_differ(n, m));
    }
}

fn sizes(n: u32, m: u32, page_bytes: u32, s: u32) -> Sizes {
    Sizes {
        n,
        m,
        page_bytes,
        s,
    }
}

fn random_scene(sizes: Sizes, list: Vec<u16>, random: &mut Random) -> Scene {
    let originals = random.bytes(sizes.originals() * sizes.bytes());
    Scene::at_rest(sizes, list, originals)
}

fn check_move(scene: &Scene) -> Outcome {
    completed_in_order(scene)?;
    correct_split(scene)?;
    let states = trace(scene)?;
    let mut here = scene.clone();
    for (place, state) in states.iter().enumerate() {
        here.flash = state.clone();
        all_readable(&here).map_err(|why| format!("place {place}: {why}"))?;
        other_place_refused(&here, place)?;
    }
    coded_after_forward_pass(scene, &states[scene.sizes.steps() / 2])?;
    all_moved(&here)?;
    ended(&scene.sizes, &here.flash)?;
    erases_balanced(scene, &states)?;
    one_run_is_many(scene, &states)
}

/// Kept pages go where they are sent, each place gets one page, and of two
/// dropped pages the higher goes to the higher place.
fn completed_in_order(scene: &Scene) -> Outcome {
    let destinations = scene.destinations();
    let pages = 0..destinations.len();
    let (dropped, kept): (Vec<usize>, Vec<usize>) = pages.partition(|&k| scene.is_dropped(k));
    let sent = kept
        .iter()
        .all(|&k| destinations[k] == scene.list[k] as usize);
    let rising = dropped
        .windows(2)
        .all(|pair| destinations[pair[0]] < destinations[pair[1]]);
    let mut places = destinations.clone();
    places.sort();
    let filled = places.iter().enumerate().all(|(due, &place)| place == due);
    ensure(sent && rising && filled, || {
        format!("completed to {destinations:?}")
    })
}

/// Counts pages by set and block, from the list alone.
fn correct_split(scene: &Scene) -> Outcome {
    let m = scene.sizes.pages();
    let mut from = vec![vec![0; m]; scene.sizes.data_blocks()];
    let mut to = from.clone();
    let destinations = scene.destinations();
    for (k, &set) in scene.sets.iter().enumerate() {
        from[k / m][set as usize] += 1;
        to[destinations[k] / m][set as usize] += 1;
    }
    let all_once = from.iter().chain(&to).flatten().all(|&count| count == 1);
    ensure(all_once, || format!("sets {:?} are no split", scene.sets))
}

/// Between the passes, page q of block i - 1 is c(i) of set q.
fn coded_after_forward_pass(scene: &Scene, flash: &Flash) -> Outcome {
    let m = scene.sizes.pages();
    let destinations = scene.destinations();
    for set in 0..m {
        // The set's original in each block, and the original that comes there.
        let of_set = |k: &usize| scene.sets[*k] as usize == set;
        let members: Vec<usize> = (0..scene.sizes.originals()).filter(of_set).collect();
        let next: Vec<usize> = members.iter().map(|&k| destinations[k] / m).collect();
        for (index, &own) in members.iter().enumerate() {
            let comes = |k: &usize| destinations[*k] / m == index;
            let coming = *members
                .iter()
                .find(|k| comes(k))
                .expect("one page to each block");
            let mut due = scene.page(own);
            if !highest_of_cycle(&next, index) {
                add(&mut due, &scene.page(coming));
            }
            same("the coded page", flash.page(index * m + set), &due[..])?;
        }
    }
    Ok(())
}

fn highest_of_cycle(next: &[usize], index: usize) -> bool {
    let mut at = next[index];
    while at < index {
        at = next[at];
    }
    at == index
}

fn other_place_refused(scene: &Scene, place: usize) -> Outcome {
    let other = (place + 1) % (scene.sizes.steps() + 1);
    let refused = answer(&scene.run_request(other as u32, 1));
    same(
        &format!("place {other} at place {place}"),
        refused.numbers.returned,
        5,
    )
}

/// Blocks 0 and n are erased once, the others twice.
fn erases_balanced(scene: &Scene, states: &[Flash]) -> Outcome {
    let n = scene.sizes.data_blocks();
    for block in 0..=n {
        let blank = |flash: &Flash| flash.block_is_blank(block);
        let erased = |pair: &&[Flash]| !blank(&pair[0]) && blank(&pair[1]);
        let erases = states.windows(2).filter(erased).count();
        let due = if block == 0 || block == n { 1 } else { 2 };
        same(&format!("erases of block {block}"), erases, due)?;
    }
    Ok(())
}

fn one_run_is_many(scene: &Scene, states: &[Flash]) -> Outcome {
    let steps = scene.sizes.steps() as u32;
    let mut scene = scene.clone();
    let first = scene.run(0, steps / 3);
    same("finished", first.numbers.finished, 0)?;
    ensure(scene.flash == states[steps as usize / 3], || {
        "the flash differs".into()
    })?;
    let rest = scene.run(steps / 3, u32::MAX);
    let reads = first.numbers.pages_read + rest.numbers.pages_read;
    let most = 2 * scene.sizes.n * scene.sizes.n * scene.sizes.m;
    ensure(reads <= most, || format!("{reads} pages read"))?;
    same("the place reached", rest.numbers.place, steps)?;
    same("finished", rest.numbers.finished, 1)?;
    let erases = first.numbers.erases + rest.numbers.erases;
    same("erases", erases, 2 * scene.sizes.n)?;
    let writes = first.numbers.writes + rest.numbers.writes;
    same("writes", writes, steps - erases)?;
    same("steps", first.numbers.steps + rest.numbers.steps, steps)?;
    ensure(scene.flash == states[steps as usize], || {
        "the end differs".into()
    })
}

/// Too many places and pages for all; some of both.
fn big_move(n: u32, m: u32, random: &mut Random) -> Outcome {
    let shape = sizes(n, m, 2, random.below(3) as u32);
    let list = random.permutation(shape.originals());
    let list = random.dropping(list);
    let mut scene = random_scene(shape, list, random);
    correct_split(&scene)?;
    let mut place = 0;
    while place < shape.steps() as u32 {
        let budget = random.between(1, shape.steps() / 10) as u32;
        let ran = scene.run(place, budget).numbers;
        ensure(ran.pages_read <= n * ran.writes, || {
            format!("{} pages read for {}", ran.pages_read, ran.writes)
        })?;
        place = ran.place;
        for _ in 0..20 {
            original_readable(&scene, random.below(shape.originals()))?;
        }
    }
    all_moved(&scene)?;
    ended(&shape, &scene.flash)
}

/// Neither a run nor a recovery can take one place for another.
fn marks_differ(n: u32, m: u32) -> Outcome {
    for s in 0..=2 {
        let shape = sizes(n, m, 1, s);
        let places = 0..=shape.steps();
        let mut seen: Vec<Vec<u8>> = places.map(|place| marks_at(&shape, place)).collect();
        seen.sort();
        seen.dedup();
        same("different marks", seen.len(), shape.steps() + 1)?;
    }
    Ok(())
}
