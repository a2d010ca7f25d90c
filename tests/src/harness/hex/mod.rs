//! Compares the calls that read and write Intel HEX with the simulator.

pub mod compare;
mod drafts;
mod drive;
mod families;
mod flaws;
