//! The simulator's own checks.

pub mod call_lists;
pub mod drop_cases;
pub mod hand_cases;
pub mod hex_cases;
pub mod listing_cases;
pub mod order_cases;
pub mod pair_cases;
pub mod papers;
pub mod pin_cases;
pub mod read_counts;
pub mod rebuild_cases;
pub mod recovery_lines;
pub mod refusing;
pub mod small_moves;
pub mod step_inputs;
pub mod tally;
pub mod torn;
pub mod trace;
pub mod wear_cases;
