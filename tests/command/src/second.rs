//! Requests of the second kind as text: the figures H1 to H4 and H7, and what is shown of a file.

use crate::floe::{Floe, Tried};

/// A device that wakes in 1 tick at 4 and shuts down in 3 at 2.
const DEVICE: &str = "device 1 3 9 1 4 2";

/// A horizon and further lines, the words after `floe COMMAND -`, and what is printed.
const FIGURES: [(u8, &str, &str, &str); 5] = [
    (8, DEVICE, "rows", "energy 14\ndevice 0 DDDSSSSU\n"),
    (3, DEVICE, "rows", "energy 27\ndevice 0 WWW\n"),
    (4, DEVICE, "rows", "energy 10\ndevice 0 DDDU\n"),
    (
        9,
        "device 1 3 9 1 4 2\njob 2 7 2 0",
        "plan",
        "energy 47\njob 0 start 2 margin 3\ndevice 0 WWWWDDDSU\n",
    ),
    (
        5,
        "device 1 1 5 1 3 3\njob 0 5 2 0",
        "plan",
        "energy 17\njob 0 start 0 margin 3\ndevice 0 WWDSU\n",
    ),
];

/// The file of figure H4, and its text as it is shown.
const FILE: [u8; 24] = [
    0xFF, 2, 0, 9, 1, 1, 3, 0, 9, 0, 1, 0, 4, 0, 2, 0, 1, 0, 2, 0, 7, 0, 2, 1,
];
const SHOWN: &str = "\
kind 2
horizon 9

# device: wake, shut, Pw, Ps, Pwake, Pshut
device 1 3 9 1 4 2

# job: release, deadline, running time, devices
job 2 7 2 0
";

pub fn test(floe: &Floe) -> Tried {
    for (horizon, lines, command, printed) in FIGURES {
        let text = format!("kind 2\nhorizon {horizon}\n{lines}\n");
        floe.prints(&[command, "-"], &text, printed)?;
    }
    floe.shows(&FILE, SHOWN)?;
    Ok(FIGURES.len() as u64 + 2)
}
