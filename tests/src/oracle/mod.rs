//! What has to come out, by the rules alone.

pub mod catalogue;
pub mod expect;
pub mod first;
pub mod judge;
pub mod layers;
pub mod least;
pub mod listing;
pub mod long;
pub mod looser;
pub mod mend;
pub mod possible;
pub mod request;
pub mod rows;
pub mod sheets;
pub mod stepping;
pub mod steps;
pub mod visit;
pub mod writing;

#[cfg(test)]
mod figures;
