//! What a power cut leaves behind.

use super::flash::Flash;
use super::sizes::UNWRITTEN;
use super::steps::Step;
use crate::random::Random;

/// A slot that a cut tore, and the mark that it left there.
pub type Torn = (usize, u8);

/// The lowest mark that is no letter. A cut leaves one from here on to 255.
const HALF_WRITTEN: u8 = 3;

/// Mostly the marks at the ends of the range.
pub fn any_torn_mark(random: &mut Random) -> u8 {
    match random.below(4) {
        0 => random.between(HALF_WRITTEN as usize, UNWRITTEN as usize) as u8,
        1 => *random.pick(&[HALF_WRITTEN, UNWRITTEN - 1]),
        _ => UNWRITTEN,
    }
}

/// The slots that a cut inside this step can tear.
pub fn slots_at_risk(flash: &Flash, step: Step) -> Vec<usize> {
    let sizes = &flash.sizes;
    match step {
        Step::WriteCoded { block, page } | Step::WriteFinal { block, page } => {
            vec![sizes.slot(block, page)]
        }
        Step::Erase { block } => (0..sizes.pages())
            .map(|page| sizes.slot(block, page))
            .collect(),
    }
}

/// All choices of slots that a cut inside this step can have torn, each with
/// any of these marks. A write tears its page; an erase tears any of its
/// pages, even none.
pub fn torn_choices(flash: &Flash, step: Step, marks: &[u8]) -> Vec<Vec<Torn>> {
    let mut choices: Vec<Vec<Torn>> = vec![vec![]];
    for slot in slots_at_risk(flash, step) {
        let mut torn = vec![];
        for &mark in marks {
            let with_slot = |choice: &Vec<Torn>| [&choice[..], &[(slot, mark)]].concat();
            torn.extend(choices.iter().map(with_slot));
        }
        match step {
            Step::Erase { .. } => choices.extend(torn),
            _ => choices = torn,
        }
    }
    choices
}

/// Tears a slot: a mark that is no letter, and bytes that nobody knows
/// beforehand.
pub fn tear(flash: &mut Flash, (slot, mark): Torn, unknown: impl FnOnce(&[u8]) -> Vec<u8>) {
    assert!(mark >= HALF_WRITTEN, "a cut leaves no letter");
    let bytes = unknown(flash.page(slot));
    flash.put_page(slot, mark, &bytes);
}
