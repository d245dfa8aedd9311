//! The original Rust of cxx-build 1.0.205 as the judge of a port.

pub mod against;
pub mod batch;
pub mod book;
pub mod coverage;
pub mod equations;
pub mod generate;
pub mod judge;
#[cfg(feature = "lines")]
pub mod lines;
pub mod messages;
pub mod print;
pub mod proved;
pub mod reader;
pub mod sheet;
pub mod stored;
mod syntax;
pub mod tiers;
mod tree;
pub mod unpin;
