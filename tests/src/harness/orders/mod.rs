//! Drives the calls about block orders, and compares them with the simulator.

pub mod compare;
mod drive;
mod families;
