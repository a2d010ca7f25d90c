//! Correct splits that the split call would not make.

use super::walk::{random_scene, sizes, walk};
use super::Outcome;
use crate::harness::compare::Comparer;
use crate::random::Random;
use crate::scene::Scene;
use crate::simulator::sizes::Sizes;

pub fn cases(comparer: &mut Comparer, random: &mut Random) -> Outcome {
    for round in 0..150 {
        let widest = 2 + round / 30;
        let shape = sizes(
            random.between(1, widest),
            random.between(2, widest),
            1 + round % 3,
            random.below(3),
        );
        let mut scene = random_scene(shape, random);
        scene.sets = elsewhere(&scene, random);
        walk(comparer, &scene, shape.pages(), 4, random)?;
    }
    Ok(())
}

/// A split of the list in one of two other ways.
pub fn elsewhere(scene: &Scene, random: &mut Random) -> Vec<u8> {
    match random.below(2) {
        0 => relabelled(scene, random),
        _ => peeled(scene, random),
    }
}

/// The same sets under other numbers.
fn relabelled(scene: &Scene, random: &mut Random) -> Vec<u8> {
    let labels = random.permutation(scene.sizes.pages());
    scene
        .sets
        .iter()
        .map(|&set| labels[set as usize] as u8)
        .collect()
}

/// One perfect matching of blocks after the other, in a random order of pages.
fn peeled(scene: &Scene, random: &mut Random) -> Vec<u8> {
    let destinations = scene.destinations();
    let order = random.permutation(scene.sizes.originals());
    let mut left: Vec<usize> = order.into_iter().map(usize::from).collect();
    let mut sets = vec![0; left.len()];
    for set in 0..scene.sizes.pages() {
        let matching = Matching::perfect(&scene.sizes, &destinations, &left);
        left.retain(|k| !matching.contains(k));
        for k in matching {
            sets[k] = set as u8;
        }
    }
    sets
}

/// The page matched to each destination block so far.
struct Matching<'a> {
    sizes: &'a Sizes,
    destinations: &'a [usize],
    pages: &'a [usize],
    arriving: Vec<Option<usize>>,
}

impl Matching<'_> {
    /// One page from each block and to each block, among these pages.
    fn perfect(sizes: &Sizes, destinations: &[usize], pages: &[usize]) -> Vec<usize> {
        let blocks = sizes.data_blocks();
        let mut matching = Matching {
            sizes,
            destinations,
            pages,
            arriving: vec![None; blocks + 1],
        };
        for source in 1..=blocks {
            let mut tried = vec![false; blocks + 1];
            assert!(
                matching.place(source, &mut tried),
                "every block has as many pages left"
            );
        }
        matching.arriving.into_iter().flatten().collect()
    }

    /// Finds a page for a source block; others give way where they can.
    fn place(&mut self, source: usize, tried: &mut [bool]) -> bool {
        let sizes = self.sizes;
        for &k in self.pages.iter().filter(|&&k| sizes.block_of(k) == source) {
            let destination = sizes.block_of(self.destinations[k]);
            if std::mem::replace(&mut tried[destination], true) {
                continue;
            }
            let free = match self.arriving[destination] {
                None => true,
                Some(other) => self.place(sizes.block_of(other), tried),
            };
            if free {
                self.arriving[destination] = Some(k);
                return true;
            }
        }
        false
    }
}
