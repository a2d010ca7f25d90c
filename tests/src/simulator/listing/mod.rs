//! Step listings of other movers: would they have survived a cut?

pub mod calls;
pub mod lines;
pub mod method;
pub mod request;
pub mod rules;
pub mod state;
