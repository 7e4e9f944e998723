//! How a program is run, what the runs have met, and what the papers say of them.

pub mod pipes;
pub mod readme;
pub mod runner;
pub mod streams;
pub mod tally;
