//! The comparison of a mover with the simulator.

use super::drive::drive;
use super::families::{Family, FAMILIES, LISTS};
use super::interface::Calls;
use super::record::{blocks_erased, room_left};
use super::shrink::shrink;
use crate::checks::tally::{ensure, Tally};
use crate::random::{rounds_from_environment, Random};
use crate::simulator::calls::{answer, move_of};
use crate::simulator::dropping::{Term, DROPPED};
use crate::simulator::flash::Flash;
use crate::simulator::reading::terms_of;
use crate::simulator::request::{Answer, Call, Numbers, Request, ALL_PARTS, CALLS};
use crate::simulator::rules::Correct;
use crate::simulator::wear::{counters, fresh_pair, pair};
use std::fmt;

/// A request on which the mover and the simulator differ.
pub struct Difference {
    pub request: Request,
    pub what: String,
}

/// More bytes than anyone reads; such a case is found again by its seed.
const PRINT_LIMIT: usize = 1 << 20;

impl fmt::Display for Difference {
    fn fmt(&self, out: &mut fmt::Formatter) -> fmt::Result {
        writeln!(out, "{}", self.what)?;
        if self.request.parts.store.len() > PRINT_LIMIT {
            return write!(
                out,
                "{:?} of {:?}, too big to print",
                self.request.call, self.request.sizes
            );
        }
        write!(out, "{}", self.request)
    }
}

/// A mover under comparison, with the number of calls compared of each kind.
pub struct Comparer<'a> {
    calls: &'a Calls,
    compared: [u64; 6],
    /// Runs and reads that counted none, some and all bytes of their pages.
    counted: [u64; 3],
    /// Runs that read no page for those they wrote, at most as many as they wrote, and
    /// more.
    reads: [u64; 3],
    /// Calls with pinned pages that were carried out, that were refused for them, and
    /// for one that is dropped among these.
    pinned: [u64; 3],
    /// Calls carried out with a list that drops one page, some pages, or all.
    dropping: [u64; 3],
    /// Reads of dropped pages.
    dropped_read: u64,
    /// Runs refused for wear, runs from place 0 of which a block just keeps the
    /// limit, and calls that erase a block whose counter is full.
    worn: [u64; 3],
    /// Calls with a right pair, and with a wrong one, that change it.
    pairs: [u64; 2],
    /// Rebuilds that lost an original, that lost none though a page of a full block
    /// was named, where another sum than read's was used, and where the page named was
    /// of no use.
    rebuilds: [u64; 4],
    /// The events of lists: calls, cut ones among them, and cuts between calls.
    pub events: u64,
    /// Those of lists that drop pages.
    pub events_dropping: u64,
    pub cuts: u64,
    /// How often the random lists of events are played.
    pub rounds: u64,
    /// Without the simulator's answers nothing but demand 3 is looked at.
    with_simulator: bool,
    /// Print each request before the call, to see the one that a crash ends in.
    trace: bool,
}

impl<'a> Comparer<'a> {
    pub fn new(calls: &'a Calls) -> Comparer<'a> {
        Comparer {
            calls,
            compared: [0; 6],
            counted: [0; 3],
            reads: [0; 3],
            pinned: [0; 3],
            dropping: [0; 3],
            dropped_read: 0,
            worn: [0; 3],
            pairs: [0; 2],
            rebuilds: [0; 4],
            events: 0,
            events_dropping: 0,
            cuts: 0,
            rounds: rounds_from_environment(),
            with_simulator: true,
            trace: std::env::var_os("MOVER_TRACE").is_some(),
        }
    }

    /// Compares one call; the answer is handed back, so that a chain of calls
    /// can go on from it.
    pub fn compare(&mut self, request: &Request) -> Result<Answer, Box<Difference>> {
        if self.trace {
            println!("{request}");
        }
        if !self.with_simulator {
            let request = request.clone();
            return drive(self.calls, &request)
                .map_err(|what| Box::new(Difference { request, what }));
        }
        let due = answer(request);
        if let Some(what) = difference(drive(self.calls, request), &due) {
            return Err(Box::new(shrink(self.calls, request.clone(), what)));
        }
        self.compared[request.call as usize] += 1;
        self.note_count(request, &due.numbers);
        self.note_reads(&due.numbers);
        self.note_pins(request, &due.numbers);
        self.note_wear(request, &due);
        if due.numbers.returned == 0 {
            self.note_drops(request);
            self.note_rebuild(request, &due);
        }
        Ok(due)
    }

    fn note_count(&mut self, request: &Request, numbers: &Numbers) {
        let pages = match request.call {
            Call::Run => numbers.writes,
            Call::Read if numbers.returned == 0 => 1,
            _ => 0,
        };
        match numbers.written_bytes {
            _ if pages == 0 => {}
            0 => self.counted[0] += 1,
            count if count < pages * request.sizes.page_bytes => self.counted[1] += 1,
            _ => self.counted[2] += 1,
        }
    }

    fn note_reads(&mut self, numbers: &Numbers) {
        match numbers.pages_read {
            _ if numbers.writes == 0 => {}
            0 => self.reads[0] += 1,
            reads if reads <= numbers.writes => self.reads[1] += 1,
            _ => self.reads[2] += 1,
        }
    }

    fn note_pins(&mut self, request: &Request, numbers: &Numbers) {
        match numbers.returned {
            0 if request.parts.pins.iter().any(|&pin| pin != 0) => self.pinned[0] += 1,
            11 => {
                self.pinned[1] += 1;
                self.pinned[2] += pinned_and_dropped(request) as u64;
            }
            _ => {}
        }
    }

    fn note_wear(&mut self, request: &Request, due: &Answer) {
        if request.parts.wear != due.parts.wear {
            self.note_pair(&request.parts.wear, &due.parts.wear);
        }
        if due.numbers.returned == 12 {
            self.worn[0] += 1;
        }
        let records = matches!(request.call, Call::Run | Call::Mend);
        if !records || due.numbers.returned != 0 {
            return;
        }
        let begins = request.call == Call::Run && request.place == 0;
        if begins && room_left(request) == Some(0) {
            self.worn[1] += 1;
        }
        let full = |block: usize| request.parts.wear[4 * block..4 * block + 4] == [255; 4];
        let any_full = (0..=request.sizes.data_blocks()).any(full);
        if any_full && blocks_erased(request, due).into_iter().any(full) {
            self.worn[2] += 1;
        }
    }

    fn note_pair(&mut self, before: &[u8], after: &[u8]) {
        let lent = pair::<Correct>(before);
        let right = lent == fresh_pair(&counters::<Correct>(before));
        if lent != pair::<Correct>(after) {
            self.pairs[!right as usize] += 1;
        }
    }

    fn note_drops(&mut self, request: &Request) {
        let entries = request.entries();
        let dropped = entries.iter().filter(|&&entry| entry == DROPPED).count();
        match dropped {
            0 => return,
            all if all == entries.len() => self.dropping[2] += 1,
            1 => self.dropping[0] += 1,
            _ => self.dropping[1] += 1,
        }
        let read = request.call == Call::Read;
        if read && entries[request.original as usize] == DROPPED {
            self.dropped_read += 1;
        }
    }

    fn note_rebuild(&mut self, request: &Request, due: &Answer) {
        if request.call != Call::Rebuild {
            return;
        }
        let flash = Flash::new(request.sizes, &request.parts.store, &request.parts.marks);
        let slot = request.slot as usize;
        let unfinished = flash.unfinished(slot / request.sizes.pages());
        let moves = move_of::<Correct>(request);
        let summed = |k: usize| {
            let terms = terms_of::<Correct>(&moves, &flash, k);
            terms.contains(&Term::Stored(slot))
        };
        match due.parts.flags.contains(&0) {
            true => self.rebuilds[0] += 1,
            false if unfinished => self.rebuilds[3] += 1,
            false => self.rebuilds[1] += 1,
        }
        let rebuilt = |&k: &usize| due.parts.flags[k] == 1;
        if !unfinished && (0..due.parts.flags.len()).filter(rebuilt).any(summed) {
            self.rebuilds[2] += 1;
        }
    }

    fn all_compared(&self) -> u64 {
        self.compared.iter().sum()
    }

    fn print_counts(&self) {
        for (call, count) in CALLS.iter().zip(self.compared) {
            println!("{call:?}: {count} calls compared");
        }
        let [none, some, all] = self.counted;
        println!("written bytes: none of the pages {none} times, some {some}, all {all}");
        let [none, few, more] = self.reads;
        println!(
            "reads: none in {none} runs that wrote, at most one a page in {few}, more in {more}"
        );
        let [done, refused, dropped] = self.pinned;
        println!("pins: {done} calls carried out, {refused} refused as 11, {dropped} of these with a drop");
        let [one, some, all] = self.dropping;
        println!("drops: one page in {one} calls carried out, some in {some}, all in {all}");
        println!("dropped pages read: {}", self.dropped_read);
        let [refused, kept, full] = self.worn;
        println!("wear: {refused} runs refused as 12, {kept} with the limit just kept, {full} erases at full counters");
        let [right, wrong] = self.pairs;
        println!("pairs changed: {right} right ones, {wrong} wrong ones");
        let [lost, kept, other, unused] = self.rebuilds;
        println!("rebuilds: {lost} with an original lost, {kept} with none, {other} by another sum, {unused} without a page of no use");
        println!("rounds: {}", self.rounds);
        println!(
            "events: {}, {} of them cut, {} with drops",
            self.events, self.cuts, self.events_dropping
        );
    }
}

/// Does the list drop a page that is pinned?
pub fn pinned_and_dropped(request: &Request) -> bool {
    let entries = request.entries();
    let mut pages = entries.iter().zip(&request.parts.pins);
    pages.any(|(&entry, &pin)| entry == DROPPED && pin != 0)
}

/// In which number or byte an answer differs from the one due.
pub fn difference(given: Result<Answer, String>, due: &Answer) -> Option<String> {
    let given = match given {
        Ok(given) => given,
        Err(damage) => return Some(damage),
    };
    if given.numbers != due.numbers {
        return Some(format!(
            "returned {:?}\n     due {:?}",
            given.numbers, due.numbers
        ));
    }
    for part in ALL_PARTS {
        if given.parts.get(part) == due.parts.get(part) {
            continue;
        }
        let mut bytes = given.parts.get(part).iter().zip(due.parts.get(part));
        if let Some(at) = bytes.position(|(given, due)| given != due) {
            let (given, due) = (given.parts.get(part)[at], due.parts.get(part)[at]);
            return Some(format!(
                "byte {at} of the part {part:?} is {given}, due is {due}"
            ));
        }
    }
    None
}

/// What the gate asks of the lists of events.
const LEAST_EVENTS: u64 = 100_000;

/// And of the runs and reads that count none, some or all bytes, and of the
/// calls with pins or with drops.
const LEAST_COUNTED: u64 = 1000;

/// Each family has its own random numbers from the seed.
fn random_of(seed: u64, family: usize) -> Random {
    Random::new(seed.wrapping_mul(1000).wrapping_add(family as u64))
}

/// Compares with all families; each is a check, and one that compares nothing
/// fails.
pub fn check_mover(tally: &mut Tally, name: &str, calls: &Calls, seed: u64) {
    let mut comparer = Comparer::new(calls);
    for (index, family) in FAMILIES.iter().enumerate() {
        let before = comparer.all_compared();
        let outcome = (family.cases)(&mut comparer, &mut random_of(seed, index));
        let mut outcome = outcome.map_err(|difference| difference.to_string());
        if outcome.is_ok() && comparer.all_compared() == before {
            outcome = Err("nothing was compared".into());
        }
        tally.check(&format!("{name}, {}", family.name), outcome);
    }
    comparer.print_counts();
    tally.check(
        &format!("{name}, events"),
        ensure(comparer.events >= LEAST_EVENTS, || {
            format!("{} are fewer than {LEAST_EVENTS}", comparer.events)
        }),
    );
    let (events, dropping) = (comparer.events, comparer.events_dropping);
    tally.check(
        &format!("{name}, events with drops and without"),
        ensure(dropping.min(events - dropping) >= events / 3, || {
            format!("{dropping} of {events} with drops")
        }),
    );
    let mut often = |what: &str, counts: &[u64]| {
        let enough = ensure(counts.iter().all(|&times| times >= LEAST_COUNTED), || {
            format!("one of {counts:?} is below {LEAST_COUNTED}")
        });
        tally.check(&format!("{name}, {what}"), enough);
    };
    often("counts of every kind", &comparer.counted);
    often("pages read, none, few, more", &comparer.reads);
    often("pins kept and moved", &comparer.pinned);
    often("one page dropped, some, all", &comparer.dropping);
    often("dropped pages read", &[comparer.dropped_read]);
    often("limits passed and kept, counters full", &comparer.worn);
    often("pairs changed, right and wrong", &comparer.pairs);
    often("rebuilds of every kind", &comparer.rebuilds);
}

/// The first difference that one of these families finds, with its name.
fn first_of(
    families: &'static [Family],
    mut comparer: Comparer,
    seed: u64,
) -> Option<(&'static str, Box<Difference>)> {
    families.iter().enumerate().find_map(|(index, family)| {
        let outcome = (family.cases)(&mut comparer, &mut random_of(seed, index));
        Some((family.name, outcome.err()?))
    })
}

/// Compares up to the first difference.
pub fn first_difference(calls: &Calls, seed: u64) -> Option<(&'static str, Box<Difference>)> {
    first_of(&FAMILIES, Comparer::new(calls), seed)
}

/// Compares lists of events up to the first difference.
pub fn first_in_lists(calls: &Calls, seed: u64) -> Option<(&'static str, Box<Difference>)> {
    first_of(&LISTS, Comparer::new(calls), seed)
}

/// What the checks of demand 3 report of a mover by themselves, when its
/// answers are not compared.
pub fn first_broken_demand(calls: &Calls, seed: u64) -> Option<String> {
    let comparer = Comparer {
        with_simulator: false,
        ..Comparer::new(calls)
    };
    first_of(&LISTS, comparer, seed).map(|(_, difference)| difference.what)
}
