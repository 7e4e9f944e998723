//! What each refusal says, to the letter.

use crate::floe::{same, Floe, Tried};

const A: &str = "device 1 5 1 3\n";

/// A text, the words after `floe COMMAND -`, and the line on standard error.
const REFUSALS: [(&str, &str, &str); 68] = [
    (
        "9 of A",
        "check",
        "3: device count (line 10, byte 2): 9 devices, at most 8",
    ),
    (
        "300 of A",
        "check",
        "3: device count (line 10, byte 2): 255 or more devices, at most 8",
    ),
    (
        "horizon 5\ndevice 0 5 1 3",
        "check",
        "4: device 0 (line 2, bytes 3 to 9): a transition time of 0",
    ),
    (
        "horizon 5\ndevice 1 5 3 3",
        "check",
        "5: device 0 (line 2, bytes 3 to 9): Ps 3 is not below P0 3",
    ),
    (
        "horizon 5\ndevice 1 5 5 6",
        "check",
        "5: device 0 (line 2, bytes 3 to 9): Ps 5 is not below Pw 5",
    ),
    (
        "9 tasks",
        "check",
        "6: task count (line 9, byte 3): 9 tasks, at most 8",
    ),
    (
        "task 0 1 -",
        "check",
        "7: task 0 (line 1, bytes 4 to 8): period 0 is outside 1 to 4096",
    ),
    (
        "task 4097 1 -",
        "check",
        "7: task 0 (line 1, bytes 4 to 8): period 4097 is outside 1 to 4096",
    ),
    (
        "task 4 0 -",
        "check",
        "8: task 0 (line 1, bytes 4 to 8): running time 0",
    ),
    (
        "task 4 5 -",
        "check",
        "8: task 0 (line 1, bytes 4 to 8): running time 5 > period 4",
    ),
    (
        "task 4 1 0",
        "check",
        "9: task 0 (line 1, bytes 4 to 8): names device 0, and the request has 0 devices",
    ),
    (
        "horizon 5\ndevice 1 5 1 3\njob 0 5 2 0,3",
        "check",
        "9: job 0 (line 3, bytes 12 to 18): names device 3, and the request has 1 device",
    ),
    (
        "horizon 4097",
        "check",
        "10: job count (line 1, byte 4): horizon 4097 is outside 1 to 4096",
    ),
    (
        "# nothing",
        "check",
        "10: job count (byte 4): no horizon and no tasks",
    ),
    (
        "task 4095 1 -\ntask 4096 1 -",
        "check",
        "10: job count (byte 14): the periods have no common multiple up to 4096",
    ),
    (
        "horizon 4\ntask 4 1 -",
        "check",
        "11: job count (line 1, byte 9): tasks and a horizon, 4",
    ),
    (
        "task 4 1 -\njob 0 4 1 -",
        "check",
        "11: job count (line 2, byte 9): tasks and 1 job",
    ),
    (
        "17 jobs",
        "check",
        "12: job count (line 18, byte 4): 17 jobs, at most 16",
    ),
    (
        "task 1 1 -\ntask 64 1 -",
        "check",
        "12: job count (byte 14): the tasks release more than 16 jobs",
    ),
    (
        "horizon 5\njob 0 5 0 -",
        "plan",
        "13: job 0 (line 2, bytes 5 to 11): running time 0",
    ),
    (
        "horizon 5\njob 0 5 1 -\n\njob 3 4 2 -",
        "plan",
        "13: job 1 (line 4, bytes 12 to 18): release 3 + running time 2 > deadline 4",
    ),
    (
        "horizon 5\njob 0 6 1 -",
        "plan",
        "13: job 0 (line 2, bytes 5 to 11): deadline 6 > horizon 5",
    ),
    (
        "horizon 5\njob 0 5 1 -",
        "verdict",
        "14: 0 start times for 1 job",
    ),
    (
        "horizon 5\njob 0 5 1 -",
        "rows 0 1",
        "14: 2 start times for 1 job",
    ),
    (
        "horizon 5\njob 1 5 1 -",
        "verdict 0",
        "16: job 0: start 0 < release 1",
    ),
    (
        "horizon 5\njob 0 5 2 -",
        "verdict 4",
        "17: job 0: start 4 + running time 2 > deadline 5",
    ),
    (
        "horizon 9\njob 0 9 2 -\njob 0 9 3 -",
        "rows 3,1",
        "18: job 0: runs from 3 to 5 and overlaps job 1, from 1 to 4",
    ),
    (
        "horizon 9\njob 0 9 2 -",
        "mend 8",
        "17: job 0: start 8 + running time 2 > deadline 9",
    ),
    (
        "horizon 9\njob 0 9 7 -\njob 0 9 3 -",
        "mend 0 0",
        "17: job 1: in the order of the given starts it cannot end by its deadline 9",
    ),
    (
        "horizon 4\njob 0 2 2 -\njob 0 2 2 -",
        "plan --budget 3",
        "19: no schedule meets all deadlines (3 vertices searched): jobs 0 and 1 alone do not fit: they run for 4 ticks in all, between the ticks 0 and 2",
    ),
    (
        "horizon 4\njob 0 2 2 -\njob 0 2 2 -",
        "plan",
        "19: no schedule meets all deadlines: jobs 0 and 1 alone do not fit: they run for 4 ticks in all, between the ticks 0 and 2",
    ),
    (
        "horizon 2\njob 0 2 2 -\njob 0 2 1 -",
        "possible --budget 1",
        "19: no schedule meets all deadlines (1 vertex searched): jobs 0 and 1 alone do not fit: they run for 3 ticks in all, between the ticks 0 and 2",
    ),
    (
        "horizon 2\njob 0 2 2 -\njob 0 2 1 -",
        "possible",
        "19: no schedule meets all deadlines: jobs 0 and 1 alone do not fit: they run for 3 ticks in all, between the ticks 0 and 2",
    ),
    (
        "horizon 5\njob 0 5 2 -",
        "plan --budget 1",
        "20: the search has more than 1 vertex, which is the budget",
    ),
    // Of the second kind.
    (
        "kind 2\nhorizon 5\ndevice 0 3 9 1 4 2",
        "check",
        "4: device 0 (line 3, bytes 5 to 14): a wake time of 0",
    ),
    (
        "kind 2\nhorizon 5\ndevice 1 0 9 9 4 2",
        "check",
        "4: device 0 (line 3, bytes 5 to 14): a shut time of 0",
    ),
    (
        "kind 2\nhorizon 5\ndevice 1 3 9 1 4 2\ndevice 1 3 9 4 4 2",
        "plan",
        "5: device 1 (line 4, bytes 15 to 24): Ps 4 is not below Pwake 4",
    ),
    (
        "kind 2\nhorizon 5\ndevice 1 3 9 2 4 1",
        "check",
        "5: device 0 (line 3, bytes 5 to 14): Ps 2 is not below Pshut 1",
    ),
    (
        "kind 2\nhorizon 5\ndevice 1 3 3 3 4 9",
        "write",
        "5: device 0 (line 3, bytes 5 to 14): Ps 3 is not below Pw 3",
    ),
    (
        "kind 2\nhorizon 0",
        "show",
        "10: job count (line 2, byte 6): no horizon and no tasks",
    ),
    (
        "kind 2\ntask 4 5 -",
        "check",
        "8: task 0 (line 2, bytes 6 to 10): running time 5 > period 4",
    ),
    (
        "kind 2\nhorizon 5\ndevice 1 3 9 1 4 2\njob 0 6 1 0",
        "draw",
        "13: job 0 (line 4, bytes 17 to 23): deadline 6 > horizon 5",
    ),
    (
        "kind 2\nhorizon 65282",
        "check",
        "10: job count (line 2, byte 6): horizon 65282 is outside 1 to 4096",
    ),
    // Of the third kind, where a record is judged before its powers are called for.
    (
        "kind 3\nhorizon 5\ndevice 0 10 4 2 3 1",
        "check",
        "4: device 0 (line 3, bytes 5 to 10): a transition time of 0",
    ),
    (
        "kind 3\nhorizon 5\ndevice 1 10 4 0",
        "check",
        "26: device 0 (line 3, bytes 5 to 10): 0 levels, at least 1",
    ),
    (
        "kind 3\nhorizon 5\ndevice 1 10 4 1 3\ndevice 1 10 4 5 5 4 3 2 1",
        "plan",
        "26: device 1 (line 4, bytes 13 to 18): 5 levels, at most 4",
    ),
    (
        "kind 3\nhorizon 5\ndevice 1 10 4 255",
        "show",
        "26: device 0 (line 3, bytes 5 to 10): 255 levels, at most 4",
    ),
    (
        "kind 3\nhorizon 5\ndevice 1 10 4 2 3 1\ndevice 1 10 4 3 3 1 1",
        "write",
        "5: device 1 (line 4, bytes 15 to 26): P3 1 is not below P2 1",
    ),
    (
        "kind 3\nhorizon 5\ndevice 1 10 4 2 1 3",
        "check",
        "5: device 0 (line 3, bytes 5 to 14): P2 3 is not below P1 1",
    ),
    (
        "kind 3\nhorizon 5\ndevice 1 10 4 1 4",
        "draw",
        "5: device 0 (line 3, bytes 5 to 12): P1 4 is not below P0 4",
    ),
    (
        "kind 3\nhorizon 5\ndevice 1 4 10 2 4 4",
        "check",
        "5: device 0 (line 3, bytes 5 to 14): P1 4 is not below Pw 4",
    ),
    (
        "kind 3\nhorizon 5\ndevice 1 10 4 2 3 1\njob 0 6 1 0",
        "check",
        "13: job 0 (line 4, bytes 17 to 23): deadline 6 > horizon 5",
    ),
    // By their names.
    (
        "horizon 5\ndevice 0 5 1 3 name flash",
        "check",
        "4: device 0 flash (line 2, bytes 3 to 9): a transition time of 0",
    ),
    (
        "horizon 5\njob 0 6 1 - name send",
        "plan",
        "13: job 0 send (line 2, bytes 5 to 11): deadline 6 > horizon 5",
    ),
    (
        "task 4 5 - name poll",
        "check",
        "8: task 0 poll (line 1, bytes 4 to 8): running time 5 > period 4",
    ),
    (
        "horizon 9\njob 0 9 2 - name read\njob 0 9 3 - name send",
        "rows 3,1",
        "18: job 0 read: runs from 3 to 5 and overlaps job 1 send, from 1 to 4",
    ),
    (
        "task 4 2 - name read\ntask 4 3 - name send",
        "verdict 3 0",
        "17: job 0 read: start 3 + running time 2 > deadline 4",
    ),
    (
        "horizon 4\njob 0 4 1 -\njob 0 2 2 - name read\njob 0 2 2 - name send",
        "plan",
        "19: no schedule meets all deadlines: jobs 1 (read) and 2 (send) alone do not fit: they run for 4 ticks in all, between the ticks 0 and 2",
    ),
    (
        "task 4 2 -\ntask 4 3 - name send",
        "possible",
        "19: no schedule meets all deadlines: jobs 0 (task 0) and 1 (task 1 send) alone do not fit: they run for 5 ticks in all, between the ticks 0 and 4",
    ),
    // Stepping.
    (
        "horizon 9\ndevice 2 5 1 3\njob 0 9 1 0",
        "step 0",
        "24: a job that runs for fewer ticks than some device takes to move: job 0 runs for 1, and device 0 takes 2",
    ),
    (
        "kind 2\nhorizon 9\ndevice 1 1 9 1 4 2\njob 0 9 2 0",
        "step 0",
        "25: stepping is for devices of kind 1, and the request is of kind 2",
    ),
    (
        "horizon 9\ndevice 1 5 1 3\ndevice 1 5 1 5 name flash\njob 0 9 2 0",
        "step 0",
        "25: device 1 flash: stepping is for devices that cost less to move than at work: P0 5 is not below Pw 5",
    ),
    // Of the first, though the horizon's bytes are those of a mark.
    (
        "horizon 65283",
        "check",
        "10: job count (line 1, byte 4): horizon 65283 is outside 1 to 4096",
    ),
    (
        "horizon 65283\ndevice 0 5 1 3",
        "check",
        "4: device 0 (line 2, bytes 3 to 9): a transition time of 0",
    ),
    (
        "horizon 65282",
        "check",
        "10: job count (line 1, byte 4): horizon 65282 is outside 1 to 4096",
    ),
    (
        "horizon 65282\ntask 4 1 -",
        "check",
        "11: job count (line 1, byte 9): tasks and a horizon, 65282",
    ),
    (
        "horizon 65282\ndevice 0 5 1 3",
        "check",
        "4: device 0 (line 2, bytes 3 to 9): a transition time of 0",
    ),
    (
        "horizon 65282\njob 0 5 2 0",
        "check",
        "10: job count (line 1, byte 4): horizon 65282 is outside 1 to 4096",
    ),
];

const FILES: [(&[u8], &str); 26] = [
    (
        &[],
        "1: standard input is empty (if a command stands before the pipe, what it says is the reason)",
    ),
    (
        &[0],
        "1: horizon (bytes 0 to 1): the file ends here, with 1 of 2 bytes",
    ),
    (
        &[0, 5],
        "1: device count (byte 2): the file ends here, with 0 of 1 byte",
    ),
    (
        &[0, 5, 1, 1, 0],
        "1: device 0 (bytes 3 to 9): the file ends here, with 2 of 7 bytes",
    ),
    (
        &[0, 5, 0, 0],
        "1: job count (byte 4): the file ends here, with 0 of 1 byte",
    ),
    (
        &[0, 5, 9, 0, 0],
        "3: device count (byte 2): 9 devices, at most 8",
    ),
    (
        &[0, 5, 0, 0, 0, 7],
        "2: end (byte 5): 1 byte after the last section",
    ),
    (
        &[0, 5, 0, 0, 0, 7, 7],
        "2: end (bytes 5 to 6): 2 bytes after the last section",
    ),
    (
        &[0, 5, 0, 0, 1, 0, 3, 0, 4, 0, 2, 0],
        "13: job 0 (bytes 5 to 11): release 3 + running time 2 > deadline 4",
    ),
    // Of the second kind; a mark that is cut short or another is none.
    (
        &[0xFF],
        "1: horizon (bytes 0 to 1): the file ends here, with 1 of 2 bytes",
    ),
    (
        &[0xFF, 2],
        "1: horizon (bytes 2 to 3): the file ends here, with 0 of 2 bytes",
    ),
    (
        &[0xFF, 2, 0],
        "1: horizon (bytes 2 to 3): the file ends here, with 1 of 2 bytes",
    ),
    (
        &[0xFF, 2, 0, 5, 1, 1, 3, 0, 9, 0, 1, 0],
        "1: device 0 (bytes 5 to 14): the file ends here, with 7 of 10 bytes",
    ),
    (
        &[0xFF, 2, 0, 5, 1, 1, 0, 0, 9, 0, 9, 0, 4, 0, 2],
        "4: device 0 (bytes 5 to 14): a shut time of 0",
    ),
    (
        &[0xFF, 2, 0, 5, 1, 1, 3, 0, 9, 0, 1, 0, 4, 0, 1],
        "5: device 0 (bytes 5 to 14): Ps 1 is not below Pshut 1",
    ),
    (
        &[0xFF, 2, 0, 5, 0, 0, 0, 0],
        "2: end (byte 7): 1 byte after the last section",
    ),
    (
        &[0xFF, 4, 0, 0, 0],
        "10: job count (byte 4): horizon 65284 is outside 1 to 4096",
    ),
    // Of the third kind.
    (
        &[0xFF, 3, 0, 0, 0],
        "1: task count (byte 5): the file ends here, with 0 of 1 byte",
    ),
    (
        &[0xFF, 3, 0, 5, 1, 0, 0, 10, 0, 4],
        "1: device 0 (bytes 5 to 10): the file ends here, with 5 of 6 bytes",
    ),
    (
        &[0xFF, 3, 0, 5, 1, 0, 0, 10, 0, 4, 0],
        "4: device 0 (bytes 5 to 10): a transition time of 0",
    ),
    (
        &[0xFF, 3, 0, 5, 1, 0, 0, 10, 0, 4, 2, 0, 3, 0, 1, 0, 0],
        "4: device 0 (bytes 5 to 10): a transition time of 0",
    ),
    (
        &[0xFF, 3, 0, 5, 1, 1, 0, 10, 0, 4, 5],
        "26: device 0 (bytes 5 to 10): 5 levels, at most 4",
    ),
    (
        &[0xFF, 3, 0, 5, 1, 1, 0, 10, 0, 4, 0, 0, 0],
        "26: device 0 (bytes 5 to 10): 0 levels, at least 1",
    ),
    (
        &[0xFF, 3, 0, 5, 1, 1, 0, 10, 0, 4, 2, 0, 3, 0],
        "1: device 0 (bytes 5 to 14): the file ends here, with 9 of 10 bytes",
    ),
    (
        &[0xFF, 3, 0, 5, 1, 1, 0, 10, 0, 4, 2, 0, 3, 0, 3],
        "5: device 0 (bytes 5 to 14): P2 3 is not below P1 3",
    ),
    (
        &[0xFF, 3, 0, 5, 1, 1, 0, 10, 0, 4, 1, 0, 3, 0, 0, 0],
        "2: end (byte 15): 1 byte after the last section",
    ),
];

fn text(text: &str) -> String {
    match text {
        "9 of A" => format!("horizon 5\n{}", A.repeat(9)),
        "300 of A" => format!("horizon 5\n{}", A.repeat(300)),
        "9 tasks" => "task 4 1 -\n".repeat(9),
        "17 jobs" => format!("horizon 17\n{}", "job 0 17 1 -\n".repeat(17)),
        text => text.to_string(),
    }
}

pub fn test(floe: &Floe) -> Tried {
    let mut runs = 0;
    for (given, call, said) in REFUSALS {
        let mut words: Vec<&str> = call.split(' ').collect();
        words.insert(1, "-");
        let printed = floe.run(&words, text(given).as_bytes())?;
        let errors = String::from_utf8_lossy(&printed.errors).into_owned();
        let expected = (Some(1), format!("refused {said}\n"));
        same((printed.status, errors), expected, || {
            format!("{call} of {given:?}")
        })?;
        runs += 1;
    }
    for (file, said) in FILES {
        let (number, words) = floe.refused(&["check", "-"], file)?;
        same(format!("{number}: {words}"), said.to_string(), || {
            format!("{file:?}")
        })?;
        runs += 1;
    }
    Ok(runs)
}
