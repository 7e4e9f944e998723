//! The text form of a request: lines of words.
//!
//! ```text
//! horizon 5          # the ticks of the round; left out where there are tasks
//! device 1 5 1 3     # T Pw Ps P0
//! task 4 1 0,1       # period, running time, devices
//! job 0 5 2 -        # release, deadline, running time, devices; - for none
//! ```
//!
//! A device, a task or a job may have a name, `job 0 5 2 - name send`, by which a device stands in a set;
//! `unit power mW` and `unit tick 10 ms` say what the figures are.
//!
//! A request of the second kind has a line `kind 2` before all others, and its devices are
//! `device 1 3 9 1 4 2`: wake, shut, Pw, Ps, Pwake, Pshut. After `kind 3` they are `device 1 10 4 2 3 1`:
//! T, Pw, P0, how many levels, and the power of each.
//!
//! Nothing is judged here but what has no place in a file: the library refuses the rest.

pub mod catalogue;
pub mod lines;
mod naming;
pub mod part;
pub mod reader;
pub mod sets;
pub mod show;
