//! Helpers that the families share.

use super::Outcome;
use crate::harness::compare::Comparer;
use crate::random::Random;
use crate::scene::Scene;
use crate::simulator::request::Call;
use crate::simulator::rules::Correct;
use crate::simulator::sizes::Sizes;
use crate::simulator::wear::{record, record_with, Pair, COUNTERS};

pub fn sizes(n: usize, m: usize, page_bytes: usize, s: usize) -> Sizes {
    let [n, m, page_bytes, s] = [n, m, page_bytes, s].map(|number| number as u32);
    Sizes {
        n,
        m,
        page_bytes,
        s,
    }
}

/// One scene in four has pages of every kind, the others have any bytes.
pub fn scene_with(sizes: Sizes, list: Vec<u16>, random: &mut Random) -> Scene {
    if random.one_in(4) {
        let originals = pages(sizes, random);
        return lent(Scene::at_rest(sizes, list, originals), random);
    }
    any_bytes(sizes, list, random)
}

pub fn any_bytes(sizes: Sizes, list: Vec<u16>, random: &mut Random) -> Scene {
    let originals = random.bytes(sizes.originals() * sizes.bytes());
    lent(Scene::at_rest(sizes, list, originals), random)
}

/// What else the caller lends: pins, and a record of erases with its limit.
fn lent(scene: Scene, random: &mut Random) -> Scene {
    worn(pinned(scene, random), random)
}

/// Some of the pages that the list leaves where they are get a pin.
fn pinned(mut scene: Scene, random: &mut Random) -> Scene {
    for k in 0..scene.pins.len() {
        if scene.list[k] as usize == k {
            let any = random.byte();
            scene.pins[k] = *random.pick(&[0, 1, 255, any]);
        }
    }
    scene
}

/// A record of which the blocks of the store keep the limit, some of them
/// without room: those above have any counters, also full ones.
fn worn(mut scene: Scene, random: &mut Random) -> Scene {
    const FAR: usize = u32::MAX as usize - 1000;
    let widest = *random.pick(&[0, 3, 1 << 16, FAR]);
    let mut counters: Vec<u32> = (0..COUNTERS)
        .map(|_| random.between(0, widest) as u32)
        .collect();
    let used = scene.sizes.data_blocks() + 1;
    let most = counters[..used].iter().max().copied().unwrap_or(0);
    scene.wear_limit = match random.below(4) {
        0 => most + 2,
        1 => most + random.between(2, 900) as u32,
        _ => u32::MAX,
    };
    for count in &mut counters[used..] {
        if random.one_in(4) {
            *count = u32::MAX - random.below(2) as u32;
        }
    }
    scene.wear = any_pair(&counters, random);
    scene
}

/// One record in three has a wrong pair: near the counts that it has, or far.
fn any_pair(counters: &[u32], random: &mut Random) -> Vec<u8> {
    if !random.one_in(3) {
        return record::<Correct>(counters);
    }
    let near = *random.pick(counters);
    let pair: Pair = match random.below(4) {
        0 => (near, random.below(COUNTERS) as u8),
        1 => (near.saturating_add(1), random.byte()),
        2 => (near.saturating_sub(1), random.byte()),
        _ => (random.number() as u32, random.byte()),
    };
    record_with::<Correct>(counters, pair)
}

/// Any counters, half of them near their end or at it, and any pair.
pub fn any_record(random: &mut Random) -> Vec<u8> {
    let counters: Vec<u32> = (0..COUNTERS)
        .map(|_| match random.below(4) {
            0 => u32::MAX,
            1 => u32::MAX - random.below(4) as u32,
            2 => random.below(300) as u32,
            _ => random.number() as u32,
        })
        .collect();
    any_pair(&counters, random)
}

/// Originals with any bytes, with 255s among them, with nothing but 255s or
/// zeros, or the one before turned over, so that their sum is 255s.
pub fn pages(sizes: Sizes, random: &mut Random) -> Vec<u8> {
    let mut originals = vec![];
    let mut page = vec![0; sizes.bytes()];
    for _ in 0..sizes.originals() {
        let any = random.bytes(sizes.bytes());
        page = match random.below(5) {
            0 => any,
            1 => any
                .into_iter()
                .map(|byte| if random.one_in(2) { 255 } else { byte })
                .collect(),
            2 => vec![255; sizes.bytes()],
            3 => vec![0; sizes.bytes()],
            _ => page.iter().map(|byte| !byte).collect(),
        };
        originals.extend(&page);
    }
    originals
}

/// A list without drops; one in three leaves some of its pages where they are.
pub fn kept_list(sizes: &Sizes, random: &mut Random) -> Vec<u16> {
    match random.one_in(3) {
        true => random.keeping(sizes.originals()),
        false => random.permutation(sizes.originals()),
    }
}

/// One scene whose list drops nothing, and one whose list does.
pub fn both_scenes(sizes: Sizes, random: &mut Random) -> [Scene; 2] {
    let kept = kept_list(&sizes, random);
    let dropping = random.with_drops(kept.clone());
    [kept, dropping].map(|list| scene_with(sizes, list, random))
}

/// Half of the lists drop pages.
pub fn random_scene(sizes: Sizes, random: &mut Random) -> Scene {
    let list = kept_list(&sizes, random);
    let list = random.dropping(list);
    scene_with(sizes, list, random)
}

pub fn compare_split(comparer: &mut Comparer, scene: &Scene, random: &mut Random) -> Outcome {
    let mut request = scene.request(Call::Split);
    request.parts.sets = random.bytes(request.parts.sets.len());
    comparer.compare(&request)?;
    Ok(())
}

/// Compares this many reads, or one of each original if that is fewer.
pub fn compare_reads(
    comparer: &mut Comparer,
    scene: &Scene,
    most: usize,
    random: &mut Random,
) -> Outcome {
    let originals = scene.sizes.originals();
    for k in 0..originals.min(most) {
        let original = if originals <= most {
            k
        } else {
            random.below(originals)
        };
        comparer.compare(&scene.read_request(original))?;
    }
    Ok(())
}

/// From rest to the end with budgets up to `stride`; at every place reached a
/// recovery and some reads.
pub fn walk(
    comparer: &mut Comparer,
    scene: &Scene,
    stride: usize,
    reads: usize,
    random: &mut Random,
) -> Outcome {
    let mut scene = scene.clone();
    let end = scene.sizes.steps() as u32;
    let mut place = 0;
    loop {
        comparer.compare(&scene.request(Call::Mend))?;
        compare_reads(comparer, &scene, reads, random)?;
        let budget = random.between(1, stride) as u32;
        let answer = comparer.compare(&scene.run_request(place, budget))?;
        if place == end {
            return Ok(());
        }
        place = answer.numbers.place;
        scene.take_over(&answer);
    }
}
