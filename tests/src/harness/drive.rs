//! One request through the C interface.

use super::interface::Calls;
use super::lent::{Lent, Outs};
use crate::simulator::request::{Answer, Call, Numbers, Part, Parts, Request};

/// The lent parts of one call.
struct Loan {
    list: Lent,
    pins: Lent,
    sets: Lent,
    store: Lent,
    marks: Lent,
    work: Lent,
    wear: Lent,
    area: Lent,
    flags: Lent,
}

impl Loan {
    /// The parts that the call takes.
    fn new(request: &Request) -> Loan {
        let lend = |part| match request.call.parts().contains(&part) {
            true => Lent::new(request.parts.get(part)),
            false => Lent::none(),
        };
        Loan {
            list: lend(Part::List),
            pins: lend(Part::Pins),
            sets: lend(Part::Sets),
            store: lend(Part::Store),
            marks: lend(Part::Marks),
            work: lend(Part::Work),
            wear: lend(Part::Wear),
            area: lend(Part::Area),
            flags: lend(Part::Flags),
        }
    }

    fn take(self) -> Result<Parts, String> {
        Ok(Parts {
            list: self.list.take("list")?,
            pins: self.pins.take("pins")?,
            sets: self.sets.take("sets")?,
            store: self.store.take("store")?,
            marks: self.marks.take("marks")?,
            work: self.work.take("work")?,
            wear: self.wear.take("wear")?,
            area: self.area.take("area")?,
            flags: self.flags.take("flags")?,
        })
    }
}

/// The mover's answer, or what it damaged.
pub fn drive(calls: &Calls, request: &Request) -> Result<Answer, String> {
    let mut loan = Loan::new(request);
    let mut outs = Outs::junk();
    let returned = match request.call {
        Call::Split => drive_split(calls, request, &mut loan),
        Call::Run => drive_run(calls, request, &mut loan, outs.pointers()),
        Call::Mend => drive_mend(calls, request, &mut loan, outs.pointers()),
        Call::Read => drive_read(calls, request, &mut loan, outs.pointers()),
        // A live buffer of the length given.
        Call::Refresh => unsafe { (calls.refresh)(loan.wear.pointer(), loan.wear.length()) },
        Call::Rebuild => drive_rebuild(calls, request, &mut loan),
    };
    collect(request.call, returned, loan, outs)
}

fn collect(call: Call, returned: u32, loan: Loan, outs: Outs) -> Result<Answer, String> {
    let outs = outs.take()?;
    let mut numbers = Numbers {
        returned,
        ..Numbers::default()
    };
    match call {
        Call::Split | Call::Refresh | Call::Rebuild => {}
        Call::Run => {
            let [place, steps, writes, erases, finished, written_bytes, pages_read] = outs;
            numbers = Numbers {
                place,
                steps,
                writes,
                erases,
                finished,
                written_bytes,
                pages_read,
                ..numbers
            };
        }
        Call::Mend => [numbers.place, numbers.erases] = [outs[0], outs[1]],
        Call::Read => [numbers.count, numbers.written_bytes] = [outs[0], outs[1]],
    }
    let parts = loan.take()?;
    Ok(Answer { numbers, parts })
}

fn drive_split(calls: &Calls, request: &Request, loan: &mut Loan) -> u32 {
    let sizes = &request.sizes;
    // All parts are live buffers of the lengths given.
    unsafe {
        (calls.split)(
            sizes.n,
            sizes.m,
            sizes.page_bytes,
            sizes.s,
            loan.list.pointer(),
            loan.list.length(),
            loan.pins.pointer(),
            loan.pins.length(),
            loan.sets.pointer(),
            loan.sets.length(),
        )
    }
}

fn drive_run(calls: &Calls, request: &Request, loan: &mut Loan, outs: [*mut u32; 7]) -> u32 {
    let sizes = &request.sizes;
    // All parts are live buffers of the lengths given.
    unsafe {
        (calls.run)(
            sizes.n,
            sizes.m,
            sizes.page_bytes,
            sizes.s,
            loan.list.pointer(),
            loan.list.length(),
            loan.pins.pointer(),
            loan.pins.length(),
            loan.sets.pointer(),
            loan.sets.length(),
            loan.store.pointer(),
            loan.store.length(),
            loan.marks.pointer(),
            loan.marks.length(),
            loan.work.pointer(),
            loan.work.length(),
            loan.wear.pointer(),
            loan.wear.length(),
            request.place,
            request.budget,
            request.wear_limit,
            outs[0],
            outs[1],
            outs[2],
            outs[3],
            outs[4],
            outs[5],
            outs[6],
        )
    }
}

fn drive_mend(calls: &Calls, request: &Request, loan: &mut Loan, outs: [*mut u32; 7]) -> u32 {
    let sizes = &request.sizes;
    // All parts are live buffers of the lengths given.
    unsafe {
        (calls.mend)(
            sizes.n,
            sizes.m,
            sizes.page_bytes,
            sizes.s,
            loan.store.pointer(),
            loan.store.length(),
            loan.marks.pointer(),
            loan.marks.length(),
            loan.wear.pointer(),
            loan.wear.length(),
            outs[0],
            outs[1],
        )
    }
}

fn drive_read(calls: &Calls, request: &Request, loan: &mut Loan, outs: [*mut u32; 7]) -> u32 {
    let sizes = &request.sizes;
    // All parts are live buffers of the lengths given.
    unsafe {
        (calls.read)(
            sizes.n,
            sizes.m,
            sizes.page_bytes,
            sizes.s,
            loan.list.pointer(),
            loan.list.length(),
            loan.pins.pointer(),
            loan.pins.length(),
            loan.sets.pointer(),
            loan.sets.length(),
            loan.store.pointer(),
            loan.store.length(),
            loan.marks.pointer(),
            loan.marks.length(),
            loan.work.pointer(),
            loan.work.length(),
            request.original,
            outs[0],
            outs[1],
        )
    }
}

fn drive_rebuild(calls: &Calls, request: &Request, loan: &mut Loan) -> u32 {
    let sizes = &request.sizes;
    // All parts are live buffers of the lengths given.
    unsafe {
        (calls.rebuild)(
            sizes.n,
            sizes.m,
            sizes.page_bytes,
            sizes.s,
            loan.list.pointer(),
            loan.list.length(),
            loan.pins.pointer(),
            loan.pins.length(),
            loan.sets.pointer(),
            loan.sets.length(),
            loan.store.pointer(),
            loan.store.length(),
            loan.marks.pointer(),
            loan.marks.length(),
            loan.area.pointer(),
            loan.area.length(),
            loan.flags.pointer(),
            loan.flags.length(),
            request.slot,
        )
    }
}
