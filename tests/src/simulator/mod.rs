//! The page mover by plain means: searches and cycles followed block by block.

pub mod calls;
pub mod cuts;
pub mod dropping;
pub mod flash;
pub mod hex;
pub mod listing;
pub mod orders;
pub mod permutation;
pub mod reading;
pub mod rebuilding;
pub mod recovery;
pub mod refusals;
pub mod request;
pub mod rules;
pub mod running;
pub mod sizes;
pub mod split;
pub mod step_program;
pub mod steps;
pub mod wear;
