//! One list of runs, recoveries and reads with cuts; after each event demand 3
//! must hold.

use super::demand::Ledger;
use super::player::{broken, Played, Player};
use super::record::right_record;
use super::tears::Begun;
use crate::checks::tally::{ensure, same};
use crate::scene::Scene;
use crate::simulator::request::{Answer, Call, Numbers, Request};
use crate::simulator::rules::Correct;
use crate::simulator::wear::{worn_out, WEAR_BYTES};

/// How far a recovery call came before it was cut.
#[derive(Clone, Debug)]
pub enum MendCut {
    NotBegun,
    InsideErase(Begun),
    /// The erase, if there is one, is done, but nothing is returned.
    Erased,
}

#[derive(Clone)]
pub struct Story {
    pub scene: Scene,
    /// The place that the last run or recovery returned; a cut loses it.
    pub place: Option<u32>,
    /// No run that is not refused may follow a cut before a recovery call
    /// that is not itself cut.
    pub cut_open: bool,
    ledger: Ledger,
}

impl Story {
    pub fn at_rest(scene: Scene) -> Story {
        Story {
            ledger: Ledger::at_rest(&scene.sizes),
            scene,
            place: Some(0),
            cut_open: false,
        }
    }

    fn holds(&self, request: &Request) -> Played<()> {
        let held = self.ledger.holds(&self.scene);
        held.map_err(|why| broken(request, why))
    }

    /// The same, and the record is right.
    fn holds_after(&self, request: &Request, answer: &Answer) -> Played<()> {
        self.holds(request)?;
        right_record(request, answer).map_err(|why| broken(request, why))
    }

    /// The steps of a run, whose numbers and record a cut keeps from the caller.
    fn take_steps(&mut self, player: &mut Player, request: &Request) -> Played<Answer> {
        let answer = player.event(request)?;
        self.scene.take_flash(&answer);
        self.ledger
            .ran(&self.scene.sizes, request.place, &answer.numbers);
        Ok(answer)
    }

    /// A run from any place; it may be refused.
    pub fn run(&mut self, player: &mut Player, place: u32, budget: u32) -> Played<Numbers> {
        let request = self.scene.run_request(place, budget);
        let answer = self.take_steps(player, &request)?;
        self.scene.take_over(&answer);
        let numbers = &answer.numbers;
        if numbers.returned == 0 {
            if place == 0 {
                self.ledger.begun(request.wear_limit);
            }
            self.ledger.returned(numbers);
            self.place = Some(numbers.place);
        }
        self.holds_after(&request, &answer)?;
        Ok(answer.numbers)
    }

    /// A run cut after some steps; the next may be begun.
    pub fn cut_run(
        &mut self,
        player: &mut Player,
        place: u32,
        finished: u32,
        begun: Option<&Begun>,
    ) -> Played<()> {
        self.renew(place);
        let request = self.scene.run_request(place, finished);
        self.take_steps(player, &request)?;
        self.cut(player, begun);
        self.holds(&request)
    }

    /// What a cut leaves; nothing is returned.
    fn cut(&mut self, player: &mut Player, begun: Option<&Begun>) {
        player.comparer.cuts += 1;
        if let Some(begun) = begun {
            begun.tear(&mut self.scene.flash);
        }
        self.ledger.cut(begun.map(|begun| begun.step));
        self.place = None;
        self.cut_open = true;
    }

    /// A cut between calls, or of a read, which has no steps.
    pub fn cut_idle(&mut self, player: &mut Player) -> Played<()> {
        player.count_event();
        self.cut(player, None);
        self.holds(&self.scene.request(Call::Mend))
    }

    /// A recovery's erase, of which a cut keeps the numbers and the record too.
    fn erase_unfinished(&mut self, player: &mut Player, request: &Request) -> Played<Answer> {
        let answer = player.event(request)?;
        self.scene.take_flash(&answer);
        self.ledger.recovery(answer.numbers.erases);
        Ok(answer)
    }

    pub fn mend(&mut self, player: &mut Player) -> Played<()> {
        let request = self.scene.request(Call::Mend);
        let answer = self.erase_unfinished(player, &request)?;
        self.scene.take_over(&answer);
        let numbers = &answer.numbers;
        same("the number of mend", numbers.returned, 0).map_err(|why| broken(&request, why))?;
        self.place = Some(numbers.place);
        self.cut_open = false;
        self.holds_after(&request, &answer)
    }

    pub fn cut_mend(&mut self, player: &mut Player, cut: &MendCut) -> Played<()> {
        let request = self.scene.request(Call::Mend);
        if let MendCut::Erased = cut {
            self.erase_unfinished(player, &request)?;
        } else {
            player.count_event();
            self.ledger.recovery(0);
        }
        match cut {
            MendCut::InsideErase(begun) => self.cut(player, Some(begun)),
            _ => self.cut(player, None),
        }
        self.holds(&request)
    }

    pub fn read(&mut self, player: &mut Player, k: usize) -> Played<()> {
        player.read(&self.scene, k)
    }

    pub fn read_all(&mut self, player: &mut Player) -> Played<()> {
        if !player.unread(&self.scene.flash) {
            // One call stands for all, for movers that remember calls.
            return self.read(player, 0);
        }
        (0..self.scene.sizes.originals()).try_for_each(|k| self.read(player, k))
    }

    /// A call that must be refused, and leave all as it is. A recovery call
    /// counts though it is refused, if it was lent the list's own store.
    pub fn refused(&mut self, player: &mut Player, request: &Request) -> Played<()> {
        let answer = player.event(request)?;
        let refused = answer.numbers.returned != 0 && answer.parts == request.parts;
        ensure(refused, || "not refused, or not without a trace".into())
            .map_err(|why| broken(request, why))?;
        let flash = &self.scene.flash;
        let parts = &request.parts;
        let in_list = parts.store == flash.store && parts.marks == flash.marks;
        if in_list && request.call == Call::Mend {
            self.ledger.recovery(0);
            self.cut_open = false;
        }
        self.holds_after(request, &answer)
    }

    /// The caller lends another record from now on.
    pub fn lend_record(&mut self, wear: Vec<u8>) {
        self.ledger.other_record();
        self.scene.wear = wear;
    }

    /// The record is that of a new module, and any limit will do.
    pub fn new_module(&mut self) {
        self.lend_record(vec![0; WEAR_BYTES]);
        self.scene.wear_limit = u32::MAX;
    }

    /// Where the move begins, a block may be worn, by recoveries if by nothing
    /// else.
    fn renew(&mut self, place: u32) {
        if worn_out::<Correct>(&self.scene.run_request(place, 0)) {
            self.new_module();
        }
    }

    /// From wherever the list is to the finish.
    pub fn finish(&mut self, player: &mut Player) -> Played<()> {
        if self.cut_open || self.place.is_none() {
            self.mend(player)?;
        }
        let place = self.place.unwrap_or(0);
        self.renew(place);
        let numbers = self.run(player, place, u32::MAX)?;
        same("finished", numbers.finished, 1)
            .map_err(|why| broken(&self.scene.run_request(place, u32::MAX), why))
    }
}
