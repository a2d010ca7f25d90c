//! Store images as Intel HEX: a text into a store at rest, and a store at rest
//! into its text.

pub mod calls;
pub mod reader;
pub mod record;
pub mod request;
pub mod rules;
pub mod writer;
