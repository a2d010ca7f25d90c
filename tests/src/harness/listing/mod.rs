//! Drives the call that checks listings, and compares it with the simulator.

pub mod compare;
mod drive;
mod families;
