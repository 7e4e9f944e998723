//! What is asked of the system: a run's status with its CPU seconds, and how many runs the machine has room for.

use std::fs;
use std::io;
use std::os::unix::process::ExitStatusExt;
use std::process::{Command, ExitStatus};

/// As `struct rusage` on Linux with 64 bits: two times, and fourteen numbers that are not read here.
#[repr(C)]
struct Usage {
    user: [i64; 2],
    system: [i64; 2],
    rest: [i64; 14],
}

extern "C" {
    fn wait4(pid: i32, status: *mut i32, options: i32, usage: *mut Usage) -> i32;
}

/// Runs a command to its end. The seconds are the processor's, user and system, with its children: other work on the machine hardly changes them.
pub fn run(command: &mut Command) -> io::Result<(ExitStatus, f64)> {
    let child = command.spawn()?;
    let mut status = 0;
    let mut usage = Usage {
        user: [0; 2],
        system: [0; 2],
        rest: [0; 14],
    };
    loop {
        // SAFETY: both places are ours and outlive the call; the child is ours and nobody else waits for it.
        let ended = unsafe { wait4(child.id() as i32, &mut status, 0, &mut usage) };
        if ended == child.id() as i32 {
            break;
        }
        let error = io::Error::last_os_error();
        if error.kind() != io::ErrorKind::Interrupted {
            return Err(error);
        }
    }
    let seconds = |time: [i64; 2]| time[0] as f64 + time[1] as f64 / 1e6;
    let cpu = seconds(usage.user) + seconds(usage.system);
    Ok((ExitStatus::from_raw(status), cpu))
}

/// How many provers may run side by side: as many as the machine has processors, or RT_JOBS; 4 at most, and each has to have room for 2.5 GiB.
pub fn workers() -> Result<usize, String> {
    let asked = match std::env::var("RT_JOBS") {
        Ok(word) => match word.parse() {
            Ok(0) | Err(_) => {
                return Err(format!("RT_JOBS is a number, 1 or more, and not '{word}'"))
            }
            Ok(jobs) => jobs,
        },
        Err(_) => std::thread::available_parallelism().map_or(1, usize::from),
    };
    let fitting = free_kib().map_or(1, |kib| kib / 2_621_440);
    Ok(asked.min(4).min(fitting).max(1))
}

fn free_kib() -> Option<usize> {
    let text = fs::read_to_string("/proc/meminfo").ok()?;
    let line = text
        .lines()
        .find(|line| line.starts_with("MemAvailable:"))?;
    line.split_whitespace().nth(1)?.parse().ok()
}
