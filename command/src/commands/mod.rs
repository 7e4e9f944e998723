//! The commands: what each is called with, what it is for, and what it does.

mod export;
mod files;
mod judging;
mod picture;
mod searching;
mod work;

use crate::arguments::Arguments;
use crate::failure::Failure;
use crate::options::{
    Opt, BUDGET, CSV, DARK, HORIZON, LIGHT, MEMORY, MEND, PARTS_FROM, RUNS, SHEETS, STARTS,
    STARTS_FROM, TEXT, WIDTH,
};
use std::ffi::OsString;
use std::fmt::Write;

pub struct Command {
    pub name: &'static str,
    arguments: &'static str,
    help: &'static str,
    /// What there is to say of its options.
    notes: &'static str,
    options: &'static [Opt],
    run: fn(Arguments) -> Result<Vec<u8>, Failure>,
}

/// In the order in which a newcomer may want them.
pub static COMMANDS: [Command; 12] = [
    Command {
        name: "plan",
        arguments: "REQUEST [--csv [FILE]] [--runs]",
        help: "the plan of least energy",
        notes: "\
--csv FILE writes its jobs to FILE as a sheet (job, start, margin) and prints the plan as ever; --csv
alone prints the sheet, and the energy goes to standard error. --runs shows rows as W×12 D×3 S×40.
--memory N lends the search N MiB to remember in, 64 where nothing is said: more is faster, and never
another plan. --budget N counts the vertices of the search instead, N at most.",
        options: &[BUDGET, MEMORY, CSV, RUNS],
        run: searching::plan,
    },
    Command {
        name: "draw",
        arguments: "REQUEST [--starts S,..]",
        help: "a picture of the plan, or of given start times, in SVG",
        notes: "\
--width N makes the picture N pixels wide, from 480 on. It is light or dark as the viewer prefers;
--light and --dark say which. --memory N and --budget N as of plan.",
        options: &[BUDGET, MEMORY, STARTS, STARTS_FROM, WIDTH, DARK, LIGHT],
        run: picture::draw,
    },
    Command {
        name: "check",
        arguments: "REQUEST",
        help: "whether the request is accepted, and what is in it",
        notes: "",
        options: &[],
        run: judging::check,
    },
    Command {
        name: "possible",
        arguments: "REQUEST [--budget N]",
        help: "whether there is any plan at all, with the first one",
        notes: "",
        options: &[BUDGET],
        run: searching::possible,
    },
    Command {
        name: "verdict",
        arguments: "REQUEST START...",
        help: "whether given start times are feasible, and their energy",
        notes: "--starts-from FILE takes the start times from the sheet of a plan: job, start, ..",
        options: &[STARTS_FROM],
        run: judging::verdict,
    },
    Command {
        name: "rows",
        arguments: "REQUEST START... [--runs]",
        help: "the row of every device for given start times",
        notes: "\
--runs shows rows as W×12 D×3 S×40. --starts-from FILE takes the start times from the sheet of a plan.",
        options: &[RUNS, STARTS_FROM],
        run: judging::rows,
    },
    Command {
        name: "step",
        arguments: "REQUEST START...",
        help: "what each device spends if it is stepped, beside its row",
        notes: "\
Stepped, a device moves only where a job starts or is completed; its row of least energy moves at any
tick. Each device costs more to move than asleep and less than at work, and no job is shorter than T.",
        options: &[STARTS_FROM],
        run: judging::step,
    },
    Command {
        name: "mend",
        arguments: "REQUEST START...",
        help: "given start times made feasible, in their order",
        notes: "--starts-from FILE takes the start times from the sheet of a plan: job, start, ..",
        options: &[STARTS_FROM],
        run: judging::mend,
    },
    Command {
        name: "write",
        arguments: "REQUEST",
        help: "the request file of a text",
        notes: "",
        options: &[],
        run: files::write,
    },
    Command {
        name: "show",
        arguments: "REQUEST",
        help: "the text of a request file",
        notes: "",
        options: &[],
        run: files::show,
    },
    Command {
        name: "build",
        arguments: "CATALOGUE REQUEST PART...",
        help: "the request file whose devices are parts of a catalogue",
        notes: "\
REQUEST has the horizon, the tasks and the jobs, as a text or as a sheet of jobs; with a sheet
--horizon N gives the ticks of the round. --parts-from FILE takes the wanted parts from a file, a part
a line. --text gives the text form, in which each device has its part number as its name.",
        options: &[HORIZON, PARTS_FROM, TEXT],
        run: files::build,
    },
    Command {
        name: "export",
        arguments: "WHAT REQUEST [START...]",
        help: "a sheet of WHAT: catalogue, jobs, tasks or plan",
        notes: "\
catalogue takes a catalogue, or a request whose devices have part numbers as names. plan takes start
times, mended with --mend; without any it is the plan of least energy. Its energy goes to standard
error; --csv FILE writes the sheet to FILE, and energy and jobs are printed.",
        options: &[BUDGET, MEMORY, CSV, MEND, STARTS_FROM],
        run: export::export,
    },
];

/// What there is, in one page.
pub fn overview() -> String {
    let mut text = String::from(
        "floe plans one round of a recorder: which job starts when, which device sleeps.\n\n",
    );
    let call = |command: &Command| format!("{} {}", command.name, command.arguments);
    let width = COMMANDS.iter().map(|command| call(command).len()).max();
    for command in &COMMANDS {
        let call = call(command);
        let _ = writeln!(
            text,
            "  {call:width$}  {}",
            command.help,
            width = width.unwrap_or(0)
        );
    }
    text + "\
\nREQUEST is a request file or its text form, - for standard input. The text form:\n
  horizon 5         the ticks of the round; left out where there are tasks
  device 1 5 1 3    transition time T, power working Pw, asleep Ps, moving P0
  task 4 1 0,1      period, running time, the devices used or -
  job 0 5 2 0       release, deadline, running time, the devices used or -
  # a comment\n
`name WORD` at the end of such a line names its device, task or job; devices may be used by name.
`unit power mW` and `unit tick 10 ms` say what the figures are.\n
After a first line `kind 2` waking and shutting down have times and powers of their own:\n
  device 1 3 9 1 4 2    wake time, shut time, Pw, Ps, wake power, shut power\n
After `kind 3` a device has one to four sleep levels:\n
  device 1 10 4 2 3 1   T, Pw, P0, how many levels, the power of each\n
In the place of REQUEST there may be sheets, comma-separated text without a header:\n
  --catalogue FILE      a part a line: part number, T, Pw, Ps, P0; or text, `part NUMBER T Pw Ps P0`
  --parts A,B,..        the parts that are the devices 0, 1, ..; --parts-from FILE: a part a line
  --jobs FILE           a job a line: release, deadline, running time, device set
  --horizon N           the ticks of the round, with jobs
  --tasks FILE          or a task a line: period, running time, device set\n
A device set in a sheet is a number: 1 for device 0, 2 for device 1, 4 for device 2, .., added up.
START is a start time for each job, in job order; --starts-from FILE takes them from the sheet of a
plan. `floe help COMMAND` tells more of a command.\n
Exit status: 0 done; 1 refused, with its number and place on standard error; 2 wrong usage;
3 something could not be read or written. floe --version tells the version and the commit.\n"
}

impl Command {
    pub fn help(&self) -> String {
        let mut text = format!("floe {} {}\n  {}\n", self.name, self.arguments, self.help);
        if !self.notes.is_empty() {
            let _ = writeln!(text, "\n{}", self.notes);
        }
        text
    }

    /// What the command prints.
    pub fn run(&self, words: impl Iterator<Item = OsString>) -> Result<Vec<u8>, Failure> {
        let options = [self.options, &SHEETS].concat();
        let done = Arguments::new(words, &options).and_then(self.run);
        done.map_err(|failure| match failure {
            Failure::Usage(message) => Failure::Usage(format!(
                "floe {}: {message}\nusage: floe {0} {}",
                self.name, self.arguments
            )),
            other => other,
        })
    }
}
