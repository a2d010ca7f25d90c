//! Calls whose answers are written to a file, so that those of two libraries can be
//! compared: of every kind, but for a list that drops a pinned page.

use super::nonsense::wrong_mark;
use super::other_splits::elsewhere;
use super::refusals::flaws;
use super::walk::{kept_list, random_scene, sizes};
use crate::harness::compare::pinned_and_dropped;
use crate::random::Random;
use crate::scene::Scene;
use crate::simulator::calls::answer;
use crate::simulator::request::{Call, Request, CALLS};

const MOVES: usize = 600;

/// The same calls for the same seed.
pub fn requests(seed: u64) -> Vec<Request> {
    let mut random = Random::new(seed);
    let mut requests = vec![];
    for round in 0..MOVES {
        let widest = 2 + round / 150;
        let (n, m) = (random.between(1, widest), random.between(1, widest));
        let shape = sizes(n, m, random.between(1, 3), round % 3);
        let mut scene = random_scene(shape, &mut random);
        if random.one_in(3) {
            scene.list = kept_list(&shape, &mut random);
            scene.pins = vec![0; shape.originals()];
            let split = scene.request(Call::Split);
            scene.sets = answer(&split).parts.sets;
        }
        if random.one_in(3) {
            scene.sets = elsewhere(&scene, &mut random);
        }
        along(&mut requests, scene, &mut random);
    }
    requests.retain(|request| !pinned_and_dropped(request));
    requests
}

/// At some places of the move, each call as it should be, with a wrong mark, with
/// one more pin, and with a flaw or two.
fn along(requests: &mut Vec<Request>, mut scene: Scene, random: &mut Random) {
    let end = scene.sizes.steps();
    let mut place = 0;
    for _ in 0..3 {
        let steps = random.below(end - place + 1);
        scene.run(place as u32, steps as u32);
        place += steps;
        let mut marked = scene.clone();
        wrong_mark(&mut marked, random);
        let mut pinned = scene.clone();
        pinned.pins[random.below(scene.pins.len())] = 1;
        for call in CALLS {
            for scene in [&scene, &marked, &pinned] {
                let mut request = scene.request(call);
                request.place = place as u32;
                request.budget = *random.pick(&[0, 1, 2, 5, u32::MAX]);
                request.original = random.below(scene.sizes.originals()) as u32;
                request.slot = random.below(scene.sizes.slots()) as u32;
                requests.push(request.clone());
                // In turn, since those of the lengths come last.
                let flaws = flaws(&request);
                let mut two = [random.below(flaws.len()), random.below(flaws.len())];
                two.sort();
                for &flaw in &two[..random.below(3)] {
                    flaws[flaw](&mut request);
                }
                requests.push(request);
            }
        }
    }
}
