//! A simulator of the page mover, written apart from it, and a harness that
//! compares a mover behind its C interface with the simulator.

pub mod checks;
pub mod faults;
pub mod harness;
#[cfg(feature = "library")]
pub mod library;
pub mod random;
pub mod scene;
pub mod simulator;
