//! One call with everything it is given, and its answer with everything it
//! returns or leaves.

use super::sizes::Sizes;
use std::fmt;

/// "Mend" is the recovery after a power cut.
#[derive(Clone, Copy, Debug, PartialEq, Eq)]
pub enum Call {
    Split,
    Run,
    Mend,
    Read,
    /// Makes the pair of the record afresh.
    Refresh,
    /// Rebuilds all originals that it can without one page.
    Rebuild,
}

pub const CALLS: [Call; 6] = [
    Call::Split,
    Call::Run,
    Call::Mend,
    Call::Read,
    Call::Refresh,
    Call::Rebuild,
];

/// The calls that get sizes.
pub const SIZED_CALLS: [Call; 5] = [
    Call::Split,
    Call::Run,
    Call::Mend,
    Call::Read,
    Call::Rebuild,
];

#[derive(Clone, Copy, Debug, PartialEq, Eq)]
pub enum Part {
    List,
    Pins,
    Sets,
    Store,
    Marks,
    Work,
    /// The record of erases: one counter a block, and the highest.
    Wear,
    /// A page for each original that is rebuilt, or lost.
    Area,
    /// Which it is, one byte an original.
    Flags,
}

impl Call {
    /// The parts that the caller lends.
    pub fn parts(self) -> &'static [Part] {
        match self {
            Call::Split => &[Part::List, Part::Pins, Part::Sets],
            Call::Mend => &[Part::Store, Part::Marks, Part::Wear],
            Call::Run => &ALL_PARTS[..=Part::Wear as usize],
            Call::Read => &ALL_PARTS[..Part::Wear as usize],
            Call::Refresh => &[Part::Wear],
            Call::Rebuild => &[
                Part::List,
                Part::Pins,
                Part::Sets,
                Part::Store,
                Part::Marks,
                Part::Area,
                Part::Flags,
            ],
        }
    }
}

pub const ALL_PARTS: [Part; 9] = [
    Part::List,
    Part::Pins,
    Part::Sets,
    Part::Store,
    Part::Marks,
    Part::Work,
    Part::Wear,
    Part::Area,
    Part::Flags,
];

/// The memory a caller lends; a part that a call does not take is empty.
#[derive(Clone, Debug, Default, PartialEq)]
pub struct Parts {
    pub list: Vec<u8>,
    pub pins: Vec<u8>,
    pub sets: Vec<u8>,
    pub store: Vec<u8>,
    pub marks: Vec<u8>,
    pub work: Vec<u8>,
    pub wear: Vec<u8>,
    pub area: Vec<u8>,
    pub flags: Vec<u8>,
}

impl Parts {
    pub fn get(&self, part: Part) -> &Vec<u8> {
        match part {
            Part::List => &self.list,
            Part::Pins => &self.pins,
            Part::Sets => &self.sets,
            Part::Store => &self.store,
            Part::Marks => &self.marks,
            Part::Work => &self.work,
            Part::Wear => &self.wear,
            Part::Area => &self.area,
            Part::Flags => &self.flags,
        }
    }

    pub fn get_mut(&mut self, part: Part) -> &mut Vec<u8> {
        match part {
            Part::List => &mut self.list,
            Part::Pins => &mut self.pins,
            Part::Sets => &mut self.sets,
            Part::Store => &mut self.store,
            Part::Marks => &mut self.marks,
            Part::Work => &mut self.work,
            Part::Wear => &mut self.wear,
            Part::Area => &mut self.area,
            Part::Flags => &mut self.flags,
        }
    }
}

/// "Place" is the step counter: the number of the next step of the move.
#[derive(Clone, Debug, PartialEq)]
pub struct Request {
    pub call: Call,
    pub sizes: Sizes,
    pub parts: Parts,
    pub place: u32,
    pub budget: u32,
    pub wear_limit: u32,
    pub original: u32,
    /// The one whose page cannot be read.
    pub slot: u32,
}

/// The numbers returned; those that a call does not return stay 0.
#[derive(Clone, Debug, Default, PartialEq)]
pub struct Numbers {
    pub returned: u32,
    pub place: u32,
    pub steps: u32,
    pub writes: u32,
    pub erases: u32,
    pub finished: u32,
    pub count: u32,
    pub written_bytes: u32,
    pub pages_read: u32,
}

#[derive(Clone, Debug, PartialEq)]
pub struct Answer {
    pub numbers: Numbers,
    pub parts: Parts,
}

impl Request {
    /// The list as lent, low byte first.
    pub fn entries(&self) -> Vec<usize> {
        let pairs = self.parts.list.chunks_exact(2);
        pairs
            .map(|pair| pair[0] as usize + 256 * pair[1] as usize)
            .collect()
    }
}

/// Printed as a Rust expression, to be pasted into a test.
impl fmt::Display for Request {
    fn fmt(&self, out: &mut fmt::Formatter) -> fmt::Result {
        let parts = &self.parts;
        writeln!(out, "Request {{")?;
        writeln!(out, "    call: Call::{:?},", self.call)?;
        writeln!(out, "    sizes: {:?},", self.sizes)?;
        writeln!(out, "    parts: Parts {{")?;
        writeln!(out, "        list: vec!{:?},", parts.list)?;
        writeln!(out, "        pins: vec!{:?},", parts.pins)?;
        writeln!(out, "        sets: vec!{:?},", parts.sets)?;
        writeln!(out, "        store: vec!{:?},", parts.store)?;
        writeln!(out, "        marks: vec!{:?},", parts.marks)?;
        writeln!(out, "        work: vec!{:?},", parts.work)?;
        writeln!(out, "        wear: vec!{:?},", parts.wear)?;
        writeln!(out, "        area: vec!{:?},", parts.area)?;
        writeln!(out, "        flags: vec!{:?},", parts.flags)?;
        writeln!(out, "    }},")?;
        writeln!(out, "    place: {},", self.place)?;
        writeln!(out, "    budget: {},", self.budget)?;
        writeln!(out, "    wear_limit: {},", self.wear_limit)?;
        writeln!(out, "    original: {},", self.original)?;
        writeln!(out, "    slot: {},", self.slot)?;
        write!(out, "}}")
    }
}
