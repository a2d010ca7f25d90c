//! The lists printed in the papers, page by page.

use super::walk::{compare_split, scene_with, sizes, walk};
use super::Outcome;
use crate::checks::papers::{EIGHT, FOURTEEN, TWENTY_ONE};
use crate::harness::compare::Comparer;
use crate::random::Random;

pub fn cases(comparer: &mut Comparer, random: &mut Random) -> Outcome {
    for destinations in [&EIGHT[..], &FOURTEEN[..], &TWENTY_ONE[..]] {
        let n = destinations.len();
        let list: Vec<u16> = destinations.iter().map(|block| block - 1).collect();
        for s in 0..3 {
            for list in [list.clone(), random.with_drops(list.clone())] {
                let scene = scene_with(sizes(n, 1, 16, s), list, random);
                compare_split(comparer, &scene, random)?;
                walk(comparer, &scene, 1, n, random)?;
                comparer.compare(&scene.run_request(0, u32::MAX))?;
            }
        }
    }
    Ok(())
}
