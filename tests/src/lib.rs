//! Tests from outside: an oracle written from the rules alone (docs/RULES.md), and cases to try the
//! program, the library and the command line with.
//!
//! - `oracle`: what has to come out. It shares nothing with the proved code but the rules: the reader,
//!   the row energies, the listing and the visit are made a second time, by other means.
//! - `cases`: what is tried.
//! - `running`: how a program is run, and what a run has met.
//! - `rivals`: plain searches, the benchmark's other side. Three share with the proved search the
//!   visit, and one of them its shape too; the fourth has the shape of the proved `least_plan`. So the
//!   race is between makers of the same work.

pub mod cases;
pub mod oracle;
pub mod rivals;
pub mod running;
