//! What cuts leave, for read, recovery, and the run after it.

use super::walk::{compare_reads, random_scene, sizes};
use super::Outcome;
use crate::harness::compare::Comparer;
use crate::random::Random;
use crate::scene::Scene;
use crate::simulator::cuts::{any_torn_mark, tear, torn_choices};
use crate::simulator::request::Call;
use crate::simulator::steps::all_steps;

pub fn cases(comparer: &mut Comparer, random: &mut Random) -> Outcome {
    for round in 0..120 {
        let widest = 1 + round / 24;
        let bytes = random.between(1, 4);
        let shape = sizes(
            random.between(1, widest),
            random.between(1, widest),
            bytes,
            round % 3,
        );
        let scene = random_scene(shape, random);
        for _ in 0..12 {
            let place = random.below(shape.steps());
            cut_at(comparer, &scene, place, random)?;
        }
    }
    Ok(())
}

/// Cuts inside the step at this place, in one of the ways it can tear.
fn cut_at(comparer: &mut Comparer, at_rest: &Scene, place: usize, random: &mut Random) -> Outcome {
    let mut scene = at_rest.clone();
    scene.run(0, place as u32);
    let step = all_steps(&scene.sizes)[place];
    let choices = torn_choices(&scene.flash, step, &[any_torn_mark(random), 255]);
    for &torn in random.pick(&choices) {
        tear(&mut scene.flash, torn, |before| match random.below(3) {
            0 => vec![255; before.len()],
            1 => before.to_vec(),
            _ => random.bytes(before.len()),
        });
    }
    compare_reads(comparer, &scene, 4, random)?;
    comparer.compare(&scene.run_request(place as u32, 1))?;
    comparer.compare(&scene.run_request(place as u32 + 1, 1))?;
    let mended = comparer.compare(&scene.request(Call::Mend))?;
    scene.take_over(&mended);
    compare_reads(comparer, &scene, 4, random)?;
    let budget = random.below(2 * scene.sizes.pages() + 3) as u32;
    comparer.compare(&scene.run_request(mended.numbers.place, budget))?;
    Ok(())
}
