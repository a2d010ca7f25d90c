//! Pinned pages that are dropped: which answers they change.

use super::tally::{ensure, same, Tally};
use crate::random::{small_lists, Random};
use crate::scene::{small_shapes, Scene};
use crate::simulator::calls::{answer, answer_by};
use crate::simulator::dropping::DROPPED;
use crate::simulator::request::{Call, Request};
use crate::simulator::rules::Rules;
use crate::simulator::sizes::Sizes;

type Outcome = Result<(), String>;

/// Before request (xii) the drop was looked at first.
struct DropFirst;

impl Rules for DropFirst {
    fn moves_pinned(request: &Request) -> bool {
        let entries = request.entries();
        let mut pages = entries.iter().zip(&request.parts.pins).enumerate();
        pages.any(|(k, (&entry, &pin))| pin != 0 && entry != DROPPED && entry != k)
    }
}

pub fn check(tally: &mut Tally, random: &mut Random) {
    for (n, m) in small_shapes(4) {
        let lists = small_lists((n * m) as usize, 4, random);
        let outcome = lists.into_iter().try_for_each(|list| {
            let sizes = Sizes {
                n,
                m,
                page_bytes: 1,
                s: random.below(3) as u32,
            };
            let originals = random.bytes(sizes.originals());
            every_pin(Scene::at_rest(sizes, list, originals), random)
        });
        tally.check(&format!("pins and drops of n = {n}, m = {m}"), outcome);
    }
}

/// With every choice of pinned pages, at one place. A call is refused that was not,
/// or got a later number, exactly if a pinned page is dropped.
fn every_pin(mut scene: Scene, random: &mut Random) -> Outcome {
    let place = random.below(scene.sizes.steps() + 1) as u32;
    scene.run(0, place);
    for choice in 0..1u32 << scene.pins.len() {
        let pinned = |k: usize| choice >> k & 1 == 1;
        for k in 0..scene.pins.len() {
            scene.pins[k] = pinned(k) as u8;
        }
        let both = (0..scene.pins.len()).any(|k| pinned(k) && scene.is_dropped(k));
        for call in [
            Call::Split,
            Call::Run,
            Call::Mend,
            Call::Read,
            Call::Rebuild,
        ] {
            let mut request = scene.request(call);
            (request.place, request.budget) = (place, 2);
            for wrong in [false, true] {
                if wrong && !request.parts.sets.is_empty() {
                    request.parts.sets[0] = 255;
                }
                changed(&request, both).map_err(|why| format!("{request}: {why}"))?;
            }
        }
    }
    Ok(())
}

fn changed(request: &Request, both: bool) -> Outcome {
    let (before, after) = (answer_by::<DropFirst>(request), answer(request));
    match (both, request.call) {
        (true, Call::Split | Call::Run | Call::Read) => {
            same("the number", after.numbers.returned, 11)?;
            ensure(after.parts == request.parts, || {
                "a lent byte changed".into()
            })
        }
        (true, Call::Rebuild) => same("the number", after.numbers.returned, 3),
        _ => ensure(before == after, || "another answer".into()),
    }
}
