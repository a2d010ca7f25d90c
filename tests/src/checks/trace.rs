//! Whole moves: the flash at every place, and what must hold there.

use super::tally::{ensure, same};
use crate::scene::{Scene, WORK_BEFORE};
use crate::simulator::calls::answer;
use crate::simulator::flash::Flash;
use crate::simulator::request::Answer;
use crate::simulator::sizes::Sizes;
use crate::simulator::steps::{all_steps, Step};

/// The flash at every place of the uncut move, place 0 first.
pub fn trace(scene: &Scene) -> Result<Vec<Flash>, String> {
    let mut scene = scene.clone();
    let mut states = vec![scene.flash.clone()];
    for place in 0..scene.sizes.steps() as u32 {
        let answer = scene.run(place, 1);
        same("the number of run", answer.numbers.returned, 0)?;
        same("the place reached", answer.numbers.place, place + 1)?;
        let last = place as usize + 1 == scene.sizes.steps();
        same("finished", answer.numbers.finished, last as u32)?;
        work_page_follows(&scene, place as usize, &answer)?;
        states.push(scene.flash.clone());
    }
    Ok(states)
}

/// The work page holds the page just written; an erase leaves it alone.
fn work_page_follows(scene: &Scene, place: usize, answer: &Answer) -> Result<(), String> {
    let step = all_steps(&scene.sizes)[place];
    let due = match step {
        Step::Erase { .. } => vec![WORK_BEFORE; scene.sizes.bytes()],
        Step::WriteCoded { block, page } | Step::WriteFinal { block, page } => {
            scene.flash.page(scene.sizes.slot(block, page)).to_vec()
        }
    };
    same(
        &format!("the work page after step {place}"),
        &answer.parts.work,
        &due,
    )
}

pub fn original_readable(scene: &Scene, k: usize) -> Result<(), String> {
    let read = answer(&scene.read_request(k));
    same("the number of read", read.numbers.returned, 0)?;
    same(&format!("original {k}"), &read.parts.work, &scene.page(k))?;
    let count = read.numbers.count;
    let due = match scene.is_dropped(k) {
        true => 0..=0,
        false => 1..=scene.sizes.n,
    };
    ensure(due.contains(&count), || format!("{count} pages summed"))
}

pub fn all_readable(scene: &Scene) -> Result<(), String> {
    (0..scene.sizes.originals()).try_for_each(|k| original_readable(scene, k))
}

/// Every original that is kept lies where the list sends it, and each place to
/// which none is sent holds 255s.
pub fn all_moved(scene: &Scene) -> Result<(), String> {
    let mut due = vec![vec![255; scene.sizes.bytes()]; scene.sizes.originals()];
    for k in (0..due.len()).filter(|&k| !scene.is_dropped(k)) {
        due[scene.list[k] as usize] = scene.page(k);
    }
    for (number, due) in due.iter().enumerate() {
        let slot = scene.sizes.slot_of(number);
        same(&format!("slot {slot}"), scene.flash.page(slot), due)?;
    }
    Ok(())
}

/// At the end the data blocks are full of s + 2 and the spare is blank.
pub fn ended(sizes: &Sizes, flash: &Flash) -> Result<(), String> {
    ensure(flash.block_is_blank(0), || "the spare is not blank".into())?;
    for block in 1..=sizes.data_blocks() {
        let full = flash.full_of(block, ((sizes.s + 2) % 3) as u8);
        ensure(full, || format!("block {block} is not full of s + 2"))?;
    }
    Ok(())
}
