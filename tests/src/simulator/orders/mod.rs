//! Block orders: how many erases a move could do with if the blocks were named
//! otherwise.

pub mod calls;
pub mod request;
pub mod rules;
