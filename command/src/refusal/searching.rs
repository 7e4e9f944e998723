//! What a search says that has no plan: that there is none, or that it was given up.

use super::{meaning, words};
use crate::calls::planner::Refused;
use crate::failure::Failure;
use std::time::Duration;

/// 19 or 20, of a search, or 19 from where nothing is counted: a search counts one vertex at least.
/// What is known of the jobs that do not fit follows.
pub fn of_search(refused: Refused, conflict: Option<String>) -> Failure {
    let Refused { number, count, .. } = refused;
    let vertices = if count == 1 { "vertex" } else { "vertices" };
    let said = match number {
        19 if count > 0 => format!("{} ({count} {vertices} searched)", meaning(19)),
        20 => format!("the search has more than {count} {vertices}, which is the budget"),
        _ => meaning(number).to_string(),
    };
    let conflict = conflict.map_or(String::new(), |conflict| format!(": {conflict}"));
    words(number, said + &conflict)
}

/// 20 of a search that remembers: it has entered as many vertices as it may, and has no answer.
pub fn given_up(refused: Refused, after: Duration) -> Failure {
    let Refused { number, count, .. } = refused;
    let said = format!(
        "given up after {}, with {count} vertices entered and no answer; try a coarser tick, which gives \
         the round fewer ticks, or more memory (--memory), with which there are fewer vertices",
        lasting(after)
    );
    words(number, said)
}

/// How long something took, as one says it.
fn lasting(time: Duration) -> String {
    let seconds = time.as_secs();
    match (seconds / 3600, seconds / 60 % 60, seconds % 60) {
        (0, 0, seconds) => format!("{seconds} s"),
        (0, minutes, seconds) => format!("{minutes} min {seconds} s"),
        (hours, minutes, _) => format!("{hours} h {minutes} min"),
    }
}

#[cfg(test)]
mod tests {
    use super::*;

    /// No request that a test can wait for comes to this.
    #[test]
    fn a_search_that_is_given_up_says_after_how_long_and_what_helps() {
        let refused = Refused {
            number: 20,
            job: 0,
            count: u32::MAX,
        };
        assert_eq!(
            given_up(refused, Duration::from_secs(7_380)).message(),
            "refused 20: given up after 2 h 3 min, with 4294967295 vertices entered and no answer; try a \
             coarser tick, which gives the round fewer ticks, or more memory (--memory), with which there \
             are fewer vertices"
        );
    }

    #[test]
    fn times_are_said_in_two_units() {
        let said =
            [0, 59, 61, 3_599, 3_600, 90_061].map(|seconds| lasting(Duration::from_secs(seconds)));
        assert_eq!(
            said,
            [
                "0 s",
                "59 s",
                "1 min 1 s",
                "59 min 59 s",
                "1 h 0 min",
                "25 h 1 min"
            ]
        );
    }
}
