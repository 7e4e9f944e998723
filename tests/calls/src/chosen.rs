//! Kinds of cases that come often enough only if they are drawn by themselves, each with what its rows
//! must meet.

use crate::expected::Searched;
use crate::Tester;
use outside::cases::{draw_of, Kind};
use outside::running::tally::Rows;

/// The kinds, with a seed and how many files of each, and what of their rows has not come.
type Chosen = (&'static [(Kind, u64, u64)], fn(&Rows) -> Vec<String>);

const CHOSEN: [Chosen; 3] = [
    // Devices that cost as much to move as to work, or more, with gaps that cost the same slept and worked
    // through.
    (&[(Kind::Dear, 5, 3_000)], Rows::never_met),
    // Rows that sleep over the seam, devices that are never used, and ties of gaps over the seam.
    (&[(Kind::Rounds, 7, 3_000)], Rows::rounds_never_met),
    // Sensors with several sleep levels, with gaps that cost the same at two of them; and files of their
    // kind that are damaged.
    (
        &[(Kind::Third, 10, 3_000), (Kind::ThirdFault, 10, 1_500)],
        Rows::levels_never_met,
    ),
];

pub fn test(tester: &mut Tester) -> Result<(), String> {
    for (kinds, never_met) in CHOSEN {
        for &(kind, seed, files) in kinds {
            for number in 0..files {
                let case = draw_of(kind, seed, number);
                tester.all(&Searched::new(case.file));
                if let Some(failure) = tester.failure.take() {
                    return Err(failure);
                }
            }
        }
        let missed = never_met(&tester.rows);
        if !missed.is_empty() {
            return Err(format!("rows never met: {missed:?}"));
        }
    }
    Ok(())
}
