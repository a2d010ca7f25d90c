//! Drives a mover through its C interface and compares all it answers with
//! the simulator's answer.

pub mod compare;
mod demand;
pub mod drive;
pub mod families;
pub mod hex;
pub mod interface;
pub mod lent;
pub mod listing;
pub mod operations;
pub mod orders;
mod player;
pub mod programs;
mod record;
pub mod shrink;
mod story;
mod tears;
