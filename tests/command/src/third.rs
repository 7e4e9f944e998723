//! Requests of the third kind as text: the figures J5 to J10 and J19, and what is shown of a file.

use crate::floe::{Floe, Tried};

/// A sensor of two levels, and one of four.
const SENSOR: &str = "device 1 10 4 2 3 1";
const DEEP: &str = "device 1 20 10 4 9 6 3 0";

/// Lines, the words after `floe COMMAND -`, and what is printed.
const FIGURES: [(&str, &str, &str); 6] = [
    ("horizon 5\nSENSOR", "rows", "energy 17\ndevice 0 D111U\n"),
    ("horizon 6\nSENSOR", "rows", "energy 18\ndevice 0 DD22UU\n"),
    (
        "horizon 10\nDEEP",
        "rows",
        "energy 72\ndevice 0 DDD3333UUU\n",
    ),
    (
        "SENSOR\nSENSOR\ntask 8 2 0",
        "rows 1",
        "energy 46\ndevice 0 UWWDD22U\ndevice 1 22222222\n",
    ),
    (
        "horizon 10\nSENSOR\nSENSOR\njob 0 10 2 0\njob 3 9 1 0,1",
        "plan",
        "energy 86\njob 0 start 8 margin 0\njob 1 start 7 margin 1\n\
         device 0 DD222UUWWW\ndevice 1 DD222UUWDU\n",
    ),
    (
        "horizon 5\ndevice 1 5 3 1 1\njob 0 5 2 0",
        "plan",
        "energy 17\njob 0 start 0 margin 3\ndevice 0 WWD1U\n",
    ),
];

/// A file of devices with one level and with two, and its text as it is shown.
const FILE: [u8; 32] = [
    0xFF, 3, 0, 9, 2, 1, 0, 5, 0, 3, 1, 0, 1, 2, 0, 10, 0, 4, 2, 0, 3, 0, 1, 0, 1, 0, 2, 0, 7, 0,
    2, 3,
];
const SHOWN: &str = "\
kind 3
horizon 9

# device: T, Pw, P0, levels, P1, P2
device 1 5 3 1 1
device 2 10 4 2 3 1

# job: release, deadline, running time, devices
job 2 7 2 0,1
";

pub fn test(floe: &Floe) -> Tried {
    for (lines, call, printed) in FIGURES {
        let lines = lines.replace("SENSOR", SENSOR).replace("DEEP", DEEP);
        let mut words: Vec<&str> = call.split(' ').collect();
        words.insert(1, "-");
        floe.prints(&words, &format!("kind 3\n{lines}\n"), printed)?;
    }
    floe.shows(&FILE, SHOWN)?;
    Ok(FIGURES.len() as u64 + 2)
}
