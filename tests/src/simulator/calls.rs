//! The calls: a request in, an answer out.

use super::dropping::{completed, stored_in, sum};
use super::flash::Flash;
use super::permutation::Move;
use super::reading::terms_of;
use super::rebuilding::slots_summed;
use super::refusals::refusal;
use super::request::{Answer, Call, Numbers, Parts, Request};
use super::rules::{Correct, Rules};
use super::running::take_steps;
use super::split::split_by_rule;
use super::wear::{count_erases, refresh};

/// What a mover must answer.
pub fn answer(request: &Request) -> Answer {
    answer_by::<Correct>(request)
}

/// What a mover with these rules answers.
pub fn answer_by<R: Rules>(request: &Request) -> Answer {
    let mut answer = Answer {
        numbers: Numbers::default(),
        parts: request.parts.clone(),
    };
    match refusal::<R>(request) {
        Some(refusal) => answer.numbers.returned = refusal as u32,
        None => match request.call {
            Call::Split => split::<R>(request, &mut answer),
            Call::Run => run::<R>(request, &mut answer),
            Call::Mend => mend::<R>(request, &mut answer),
            Call::Read => read::<R>(request, &mut answer),
            Call::Refresh => refresh::<R>(&mut answer.parts.wear),
            Call::Rebuild => rebuild::<R>(request, &mut answer),
        },
    }
    R::amend(request, &mut answer);
    answer
}

fn flash_of(request: &Request) -> Flash {
    Flash::new(request.sizes, &request.parts.store, &request.parts.marks)
}

pub fn move_of<R: Rules>(request: &Request) -> Move {
    let entries = request.entries();
    let dropped = entries.iter().map(|&entry| R::is_dropped(entry)).collect();
    let sets = request.parts.sets.iter().map(|&set| set as usize).collect();
    Move::new(request.sizes, completed::<R>(&entries), dropped, sets)
}

/// Lays new content into a lent part from its start on.
fn put(part: &mut [u8], content: &[u8]) {
    for (to, from) in part.iter_mut().zip(content) {
        *to = *from;
    }
}

fn put_flash(parts: &mut Parts, flash: &Flash) {
    put(&mut parts.store, &flash.store);
    put(&mut parts.marks, &flash.marks);
}

fn split<R: Rules>(request: &Request, answer: &mut Answer) {
    let sets = split_by_rule::<R>(request.sizes, &completed::<R>(&request.entries()));
    let bytes: Vec<u8> = sets.iter().map(|&set| set as u8).collect();
    put(&mut answer.parts.sets, &bytes);
}

fn run<R: Rules>(request: &Request, answer: &mut Answer) {
    let all = request.sizes.steps() as u32;
    let steps = R::steps_to_take(request.place, request.budget, all);
    let mut flash = flash_of(request);
    let progress = take_steps::<R>(&move_of::<R>(request), &mut flash, request.place, steps);
    put_flash(&mut answer.parts, &flash);
    count_erases::<R>(&mut answer.parts.wear, &progress.erased);
    if let Some(page) = progress.last_page {
        put(&mut answer.parts.work, &page);
    }
    let place = request.place + steps;
    answer.numbers = Numbers {
        place,
        steps,
        writes: progress.writes,
        erases: progress.erased.len() as u32,
        finished: (place == all) as u32,
        written_bytes: progress.written_bytes,
        pages_read: progress.pages_read,
        ..Numbers::default()
    };
}

fn mend<R: Rules>(request: &Request, answer: &mut Answer) {
    let mut flash = flash_of(request);
    let Some(recovery) = R::recovery(&flash) else {
        return;
    };
    if let Some(block) = recovery.erase {
        flash.erase(block);
        count_erases::<R>(&mut answer.parts.wear, &[block]);
        answer.numbers.erases = 1;
    }
    answer.numbers.place = recovery.place;
    put_flash(&mut answer.parts, &flash);
}

fn read<R: Rules>(request: &Request, answer: &mut Answer) {
    let flash = flash_of(request);
    let terms = terms_of::<R>(&move_of::<R>(request), &flash, request.original as usize);
    let page = sum::<R>(&flash, &terms);
    put(&mut answer.parts.work, &page);
    answer.numbers.count = R::pages_summed(&terms);
    answer.numbers.written_bytes = R::written_bytes(&page);
}

fn rebuild<R: Rules>(request: &Request, answer: &mut Answer) {
    let flash = flash_of(request);
    let Some(recovery) = R::recovery(&flash) else {
        return;
    };
    let moves = move_of::<R>(request);
    let place = recovery.place as usize;
    let (mut area, mut flags) = (vec![], vec![]);
    for slots in slots_summed::<R>(&moves, &flash, place, request.slot as usize) {
        flags.push(R::FLAGS[slots.is_some() as usize]);
        area.extend(match slots {
            Some(slots) => sum::<R>(&flash, &stored_in(&slots)),
            None => vec![R::LOST_BYTE; flash.sizes.bytes()],
        });
    }
    put(&mut answer.parts.area, &area);
    put(&mut answer.parts.flags, &flags);
}
