//! The executive of documents 01 and 02 in everyday Rust: a table that is changed in place, and nothing proved.
//!
//! It was written from the documents alone, so that where it and the proved executive agree, two readings agree.

pub mod answer;
pub mod block;
pub mod calls;
pub mod configuration;
pub mod lines;
pub mod queries;
pub mod table;
pub mod validity;

// Tools for comparing and timing.
pub mod author;
pub mod logs;
pub mod mix;
#[cfg(feature = "proved")]
pub mod proved;
pub mod random;
