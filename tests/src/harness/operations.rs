//! Compares the call that tells the step at a place with the simulator's
//! list of steps.

use super::interface::OperationCall;
use crate::simulator::sizes::Sizes;
use crate::simulator::steps::{all_steps, Step};

/// What the call answers: the number returned, kind, block, page, mark.
pub type Told = [u32; 5];

/// The call, with junk in the numbers that it has to set.
pub fn told_by(call: OperationCall) -> impl Fn([u32; 3], u32, Told) -> Told {
    move |[n, m, s], place, _due| {
        let [mut kind, mut block, mut page, mut mark] = [0xDEAD_BEEF; 4];
        // Four live numbers.
        let returned = unsafe { call(n, m, s, place, &mut kind, &mut block, &mut page, &mut mark) };
        [returned, kind, block, page, mark]
    }
}

/// The first place whose step is told otherwise than the simulator has it.
/// `told` gets n, m and s, the place, and the answer due, which a mover with
/// a seeded fault starts from.
pub fn compare_operations(told: impl Fn([u32; 3], u32, Told) -> Told) -> Result<(), String> {
    let few = || (1..=8).chain([63, 64]);
    for n in few() {
        for m in few() {
            for s in 0..3 {
                compare_move(&told, [n, m, s], moved(n, m, s))?;
            }
        }
    }
    for sizes in [
        [0, 1, 0],
        [65, 1, 0],
        [1, 0, 0],
        [1, 65, 0],
        [1, 1, 3],
        [u32::MAX; 3],
    ] {
        compare_move(&told, sizes, vec![])?;
    }
    Ok(())
}

/// The answers at all places up to the end.
fn moved(n: u32, m: u32, s: u32) -> Vec<Told> {
    let page_bytes = 1;
    let sizes = Sizes {
        n,
        m,
        page_bytes,
        s,
    };
    let write = |block: usize, page: usize, later| {
        let mark = sizes.letter(later) as u32;
        [0, 0, block as u32, page as u32, mark]
    };
    let tell = |step| match step {
        Step::WriteCoded { block, page } => write(block, page, 1),
        Step::WriteFinal { block, page } => write(block, page, 2),
        Step::Erase { block } => [0, 1, block as u32, 0, 0],
    };
    let mut told: Vec<Told> = all_steps(&sizes).into_iter().map(tell).collect();
    told.push([0, 2, 0, 0, 0]);
    told
}

/// All places up to the end, and some above it; with no places the sizes are
/// out of their ranges.
fn compare_move(
    told: &impl Fn([u32; 3], u32, Told) -> Told,
    sizes: [u32; 3],
    due: Vec<Told>,
) -> Result<(), String> {
    let refused = [if due.is_empty() { 1 } else { 5 }, 0, 0, 0, 0];
    let above = due.len() as u32;
    for place in (0..above + 2).chain([u32::MAX]) {
        let due = *due.get(place as usize).unwrap_or(&refused);
        let given = told(sizes, place, due);
        if given != due {
            return Err(format!(
                "sizes {sizes:?}, place {place}: told {given:?}, due {due:?}"
            ));
        }
    }
    Ok(())
}
