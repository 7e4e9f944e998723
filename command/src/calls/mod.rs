//! All that is called outside this program: the proved library, and what is asked of the system, which
//! is the only module with unsafe code.

pub mod planner;
pub mod system;
