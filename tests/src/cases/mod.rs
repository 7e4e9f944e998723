//! What is tried: requests drawn from a seed, valid and damaged, and those that are not left to chance.

pub mod damage;
mod drawn;
pub mod example;
pub mod faults;
pub mod figures;
pub mod fixed;
pub mod random;
pub mod recorders;
pub mod second;
pub mod slow;
pub mod tables;
pub mod third;
pub mod valid;

pub use drawn::{draw, draw_of, Case, Kind};
