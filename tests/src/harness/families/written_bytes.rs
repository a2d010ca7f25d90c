//! Pages with many bytes of 255, and with none, for the counts of run and read.

use super::walk::{compare_split, pages, sizes, walk};
use super::Outcome;
use crate::harness::compare::Comparer;
use crate::random::Random;
use crate::scene::Scene;

pub fn cases(comparer: &mut Comparer, random: &mut Random) -> Outcome {
    every_store(comparer, random)?;
    for bytes in [1, 2, 15, 16, 17, 63, 64, 65, 127, 128, 129, 255, 256, 257] {
        one_byte(comparer, bytes, 1)?;
    }
    for bytes in [4095, 4096] {
        one_byte(comparer, bytes, 63)?;
    }
    mixed(comparer, random)
}

/// Two blocks of one page of two bytes, which trade places, stay or are
/// dropped, with each choice of these bytes: the sum of two of them can be 255, or another.
fn every_store(comparer: &mut Comparer, random: &mut Random) -> Outcome {
    const BYTES: [u8; 4] = [255, 0, 3, 252];
    for choice in 0..256 {
        let originals: Vec<u8> = (0..4).map(|i| BYTES[choice >> (2 * i) & 3]).collect();
        for list in [[0, 1], [1, 0], [1, u16::MAX], [u16::MAX; 2]] {
            let scene =
                Scene::at_rest(sizes(2, 1, 2, choice % 3), list.to_vec(), originals.clone());
            comparer.compare(&scene.run_request(0, u32::MAX))?;
            walk(comparer, &scene, 1, 2, random)?;
        }
    }
    Ok(())
}

/// A page that has one 255, or lacks one, at every `stride`-th byte and at the last.
fn one_byte(comparer: &mut Comparer, bytes: usize, stride: usize) -> Outcome {
    for at in (0..bytes).step_by(stride).chain([bytes - 1]) {
        for (most, one) in [(255, 254), (0, 255)] {
            let mut page = vec![most; bytes];
            page[at] = one;
            let scene = Scene::at_rest(sizes(1, 1, bytes, 0), vec![0], page);
            comparer.compare(&scene.read_request(0))?;
            comparer.compare(&scene.run_request(0, u32::MAX))?;
        }
    }
    Ok(())
}

/// Pages of every kind, and totals above 65,535.
fn mixed(comparer: &mut Comparer, random: &mut Random) -> Outcome {
    let shapes = [
        (2, 2, 3),
        (3, 3, 64),
        (5, 4, 130),
        (4, 3, 1000),
        (4, 4, 4096),
    ];
    for (round, (n, m, bytes)) in shapes.into_iter().cycle().take(40).enumerate() {
        let shape = sizes(n, m, bytes, round % 3);
        let list = random.permutation(shape.originals());
        let list = random.dropping(list);
        let scene = Scene::at_rest(shape, list, pages(shape, random));
        compare_split(comparer, &scene, random)?;
        comparer.compare(&scene.run_request(0, u32::MAX))?;
        walk(comparer, &scene, shape.pages() + 2, 3, random)?;
    }
    Ok(())
}
