//! Streams that fail, that are slow or that are long: what cannot be read or written is status 3 with
//! its reason, and nothing that was read in part is taken for the whole.

use crate::floe::{same, Floe, Tried};
use outside::cases::slow;
use outside::cases::tables::{device_a, job, Tables};
use outside::oracle::expect::BUDGET;
use outside::running::pipes;
use outside::running::runner::{run, Feed};
use std::fs::{File, OpenOptions};
use std::io::{self, Write};
use std::os::fd::AsRawFd;
use std::os::unix::fs::OpenOptionsExt;
use std::path::Path;
use std::process::Command;

/// Linux's number, the same on every processor that the tests know.
const O_NONBLOCK: i32 = 0o4000;

fn p3() -> Vec<u8> {
    Tables {
        horizon: 5,
        devices: vec![device_a()],
        tasks: Vec::new(),
        jobs: vec![job(0, 5, 2, 1)],
    }
    .bytes()
}

/// The command by a line of shell, in which `$0` stands for it.
fn by_shell(floe: &Floe, line: &str) -> Command {
    let mut command = floe.called_by(Path::new("sh"));
    command.arg("-c").arg(line).arg(floe.program());
    command
}

/// A run that must end with status 3 and say this.
fn fails(command: &mut Command, input: &[u8], words: &str) -> Result<(), String> {
    let printed = run(command, &Feed::whole(input))?;
    let errors = String::from_utf8_lossy(&printed.errors).into_owned();
    let is_said = errors.starts_with("floe: cannot ")
        && errors.contains(words)
        && errors.lines().count() == 1
        && printed.output.is_empty();
    same((printed.status, is_said), (Some(3), true), || {
        format!("{command:?}: {}", printed.report())
    })
}

pub fn failing(floe: &Floe) -> Tried {
    Ok(unwritable(floe)? + unreadable(floe)?)
}

fn not_set_up(fault: io::Error) -> String {
    format!("a stream cannot be set up: {fault}")
}

fn unwritable(floe: &Floe) -> Tried {
    let calls: [&[&str]; 9] = [
        &["plan", "-"],
        &["check", "-"],
        &["possible", "-"],
        &["verdict", "-", "0"],
        &["rows", "-", "0"],
        &["mend", "-", "0"],
        &["write", "-"],
        &["draw", "-"],
        &["--help"],
    ];
    let mut runs = 0;
    for words in calls {
        let mut full = floe.command(words);
        let full_device = OpenOptions::new().write(true).open("/dev/full");
        full.stdout(full_device.map_err(not_set_up)?);
        let mut unheard = floe.command(words);
        unheard.stdout(pipes::unheard().map_err(not_set_up)?);
        let words = words.join(" ");
        let mut closed = by_shell(floe, &format!("exec \"$0\" {words} >&-"));
        let mut read_only = by_shell(floe, &format!("exec \"$0\" {words} 1</dev/null"));
        for (command, reason) in [
            (&mut full, "write to standard output: No space left"),
            (&mut unheard, "write to standard output: Broken pipe"),
            (&mut closed, "write to standard output: it is closed"),
            (
                &mut read_only,
                "write to standard output: Bad file descriptor",
            ),
        ] {
            fails(command, &p3(), reason)?;
            runs += 1;
        }
    }
    // Where standard error cannot be written either, the status is left.
    for (line, status) in [
        ("exec \"$0\" check - 2>/dev/full", 1),
        ("exec \"$0\" check - 2>&-", 1),
        ("exec \"$0\" nothing 2>/dev/full", 2),
        ("exec \"$0\" show /nowhere >/dev/full 2>/dev/full", 3),
    ] {
        let printed = run(&mut by_shell(floe, line), &Feed::whole(b"\0"));
        let status_of = printed.map(|printed| printed.status);
        same(status_of, Ok(Some(status)), || line.to_string())?;
        runs += 1;
    }
    Ok(runs)
}

fn unreadable(floe: &Floe) -> Tried {
    let mut directory = floe.command(&["plan", "-"]);
    directory.stdin(File::open("/").map_err(not_set_up)?);
    // The first bytes come. Then a read fails, for more may follow: the writer is there to the end.
    let (reader, mut writer) = io::pipe().map_err(not_set_up)?;
    writer.write_all(&p3()[..9]).map_err(not_set_up)?;
    let mut broken_off = floe.command(&["plan", "-"]);
    let path = format!("/proc/self/fd/{}", reader.as_raw_fd());
    let mut options = OpenOptions::new();
    options.read(true).custom_flags(O_NONBLOCK);
    broken_off.stdin(options.open(path).map_err(not_set_up)?);
    let trials = [
        (&mut directory, "read standard input: Is a directory"),
        (&mut broken_off, "read standard input: Resource temporarily"),
        (
            &mut by_shell(floe, "exec \"$0\" plan - <&-"),
            "read standard input: it is closed",
        ),
        (&mut floe.command(&["plan", "/"]), "read /: Is a directory"),
        (
            &mut floe.command(&["show", "/nowhere/x"]),
            "read /nowhere/x: No such file",
        ),
        (
            &mut floe.command(&["build", "/nowhere", "-", "A"]),
            "read /nowhere: No such file",
        ),
        (
            &mut floe.command(&["check", "/dev/zero"]),
            "read /dev/zero: it has more than",
        ),
    ];
    let mut runs = 0;
    for (command, reason) in trials {
        fails(command, b"", reason)?;
        runs += 1;
    }
    drop(writer);
    Ok(runs)
}

pub fn slow(floe: &Floe) -> Tried {
    let mut runs = 0;
    for slow in slow::all() {
        // As the printing program prints it, vertices and all.
        let expected = slow.expected();
        let budget = format!("--budget={BUDGET}");
        let printed = run(&mut floe.command(&["plan", "-", &budget]), &slow.feed())?;
        let got = match printed.status {
            Some(0) => String::from_utf8_lossy(&printed.output).into_owned(),
            _ => {
                let errors = String::from_utf8_lossy(&printed.errors).into_owned();
                errors.split(':').next().unwrap_or_default().to_string() + "\n"
            }
        };
        same(got, expected, || slow.name.to_string())?;
        runs += 1;
    }
    Ok(runs)
}

const MANY: usize = 10_000_000;

pub fn large(floe: &Floe) -> Tried {
    let text = "horizon 5\ndevice 1 5 1 3\njob 0 5 2 0\n";
    let plan = floe.output(&["plan", "-"], text.as_bytes())?;
    let comments = format!("# {}\n", "ten megabytes of comments ".repeat(8)).repeat(MANY / 211);
    for input in [
        format!("{comments}{text}"),
        format!("{text}{comments}"),
        format!("#{}\n{text}", "-".repeat(MANY)),
        format!("{}{text}", "\n".repeat(MANY)),
        format!("{}{text}", " ".repeat(MANY)),
    ] {
        same(
            floe.output(&["plan", "-"], input.as_bytes())?,
            plan.clone(),
            || "ten megabytes of comment".to_string(),
        )?;
    }
    for (input, number) in [
        ("device 1 5 1 3\n".repeat(MANY / 15), 3),
        ("task 4 1 -\n".repeat(MANY / 11), 6),
        (
            format!("horizon 5\n{}", "job 0 5 1 -\n".repeat(MANY / 12)),
            12,
        ),
    ] {
        same(
            floe.refused(&["plan", "-"], input.as_bytes())?.0,
            number,
            || "ten megabytes of lines".to_string(),
        )?;
    }
    for (tail, number) in [(0, 2), (255, 2)] {
        let mut file = p3();
        file.extend(vec![tail; MANY]);
        let (refused, said) = floe.refused(&["plan", "-"], &file)?;
        let place = format!("end (bytes 19 to {}): {MANY} bytes", file.len() - 1);
        same((refused, said.starts_with(&place)), (number, true), || {
            said.clone()
        })?;
    }
    same(floe.refused(&["plan", "-"], &vec![0; MANY])?.0, 10, || {
        "zeros".to_string()
    })?;
    same(
        floe.refused(&["plan", "-"], &vec![0xFF; MANY])?.0,
        3,
        || "FF".to_string(),
    )?;
    for (input, column) in [
        ("x".repeat(MANY), 1),
        ("1 ".repeat(MANY / 2), 1),
        (format!("horizon {}", "9".repeat(MANY)), 9),
        (format!("horizon 5 {}", "9 ".repeat(MANY / 2)), 11),
        (format!("job 0 5 2 {}", "0,".repeat(MANY / 2)), 13),
    ] {
        let printed = floe.run(&["plan", "-"], input.as_bytes())?;
        let place = format!("floe: standard input: line 1, column {column}: ");
        let is_told = printed.errors.starts_with(place.as_bytes()) && printed.errors.len() < 300;
        same((printed.status, is_told), (Some(1), true), || {
            printed.report()
        })?;
    }
    Ok(5 + 3 + 2 + 2 + 5 + 1)
}
