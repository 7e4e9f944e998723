//! Every function on buffers with untouchable pages before and behind them: it leaves what it leaves on plain ones, and reaches for nothing beyond.
//!
//! A call that does ends its process. So the calls are made by a process of its own, which names each before it makes it; and so are those of wrong stand-ins,
//! each of which has to end it.

use crate::library;
use crate::pages::{leave_no_dump, End, Pages};
use linked::{COUNTED, PLACE, RESULT};
use outside::cases::random::Random;
use outside::cases::{draw, Kind};
use outside::oracle::request::read;
use outside::oracle::sheets::{draw_table, draw_text, Rows};
use outside::oracle::{catalogue, writing};
use std::collections::BTreeMap;
use std::io::{self, Write};
use std::os::unix::process::ExitStatusExt;
use std::process::{Command, ExitCode, Stdio};

/// The word by which the process of the calls is begun.
pub const WORD: &str = "guarded";

const SEED: u64 = 61;
const ROUNDS: u64 = 2_400;
/// More than the longest file that is drawn.
const LONGEST: usize = 1 << 18;
const SEGMENTATION_FAULT: i32 = 11;
/// The bytes of a device's record.
const RECORD: usize = 6;

/// How many calls there were, of each function as many.
pub fn test(seed: u64) -> Result<u64, String> {
    let (signal, named) = run("right", seed)?;
    if let Some(fault) = fault(signal, &named) {
        return Err(format!("between untouchable pages: {fault}"));
    }
    let mut calls = BTreeMap::<&str, u64>::new();
    named
        .iter()
        .for_each(|name| *calls.entry(name).or_default() += 1);
    if calls.len() != FUNCTIONS.len() || calls.values().any(|&count| count != ROUNDS) {
        return Err(format!("not called as often as the others: {calls:?}"));
    }
    for (name, _) in WRONG {
        let (signal, _) = run(name, seed)?;
        if signal != Some(SEGMENTATION_FAULT) {
            return Err(format!(
                "not found: a call that {name} its buffers: {signal:?}"
            ));
        }
    }
    Ok(named.len() as u64)
}

fn fault(signal: Option<i32>, named: &[String]) -> Option<String> {
    let last = named.last().map_or("no function", |name| name);
    match (signal, last.strip_prefix("differs: ")) {
        (None, None) => None,
        (Some(signal), _) => Some(format!("{last} is ended by signal {signal}")),
        (None, Some(how)) => Some(how.to_string()),
    }
}

/// The process of the calls: the signal that has ended it, and the functions that it has named.
fn run(which: &str, seed: u64) -> Result<(Option<i32>, Vec<String>), String> {
    let program = std::env::current_exe().map_err(|fault| fault.to_string())?;
    let words = [WORD, which, &seed.to_string()].map(String::from);
    let run = Command::new(program)
        .args(words)
        .stderr(Stdio::inherit())
        .output();
    let ended = run.map_err(|fault| fault.to_string())?;
    let named = String::from_utf8_lossy(&ended.stdout);
    Ok((
        ended.status.signal(),
        named.lines().map(String::from).collect(),
    ))
}

/// What the process of the calls does.
pub fn calls(which: &str) -> ExitCode {
    let wrong = WRONG.iter().find(|(name, _)| *name == which);
    if wrong.is_some() {
        leave_no_dump();
    }
    let mut room = Room::new();
    let mut random = Random::new(SEED, ROUNDS);
    for number in 0..ROUNDS {
        let drawn = Drawn::new(number);
        for function in &FUNCTIONS {
            let call = wrong.map_or(function.3, |(_, call)| *call);
            // Each line is written at once, so that it is there when the call ends the process.
            println!("{}", function.0);
            if let Some(how) = room.differs(&mut random, function, call, &drawn) {
                println!("differs: {how}");
                return ExitCode::FAILURE;
            }
        }
    }
    let _ = io::stdout().flush();
    ExitCode::SUCCESS
}

/// What the functions are called with.
struct Drawn {
    file: Vec<u8>,
    starts: Vec<u8>,
    tables: Vec<u8>,
    order: catalogue::Call,
    /// The tables of the order, without devices.
    others: Vec<u8>,
    devices_text: Vec<u8>,
    jobs_text: Vec<u8>,
    parts: Vec<u8>,
    records: Vec<u8>,
    /// The seven bytes of one that is stepped.
    device: Vec<u8>,
    budget: u32,
    jobs: usize,
    devices: usize,
    ticks: usize,
}

impl Drawn {
    fn new(number: u64) -> Drawn {
        let random = &mut Random::new(SEED, number);
        let case = (0..).map(|more| draw(SEED, number + (ROUNDS + 1) * more));
        let file = case
            .filter(|case| case.kind != Kind::OverBudget)
            .map(|case| case.file)
            .next();
        let file = file.expect("there is no last case");
        let (mut jobs, mut devices, mut ticks) = (0, 0, 0);
        if let Ok(request) = read(&file) {
            (jobs, devices) = (request.jobs.len(), request.devices.len());
            ticks = request.horizon as usize;
        }
        let mut starts = vec![0; 2 * jobs];
        let has_plan = library::first(&file, &mut starts, &mut [0; RESULT]) == 0;
        if !has_plan || random.one_in(4) {
            let length = 2 * jobs + random.index(3);
            starts = random.bytes(length);
        }
        let order = catalogue::draw(random);
        Drawn {
            file,
            starts,
            tables: writing::draw(random).bytes(),
            others: order.others.bytes(),
            order,
            devices_text: draw_text(random, Rows::Devices),
            jobs_text: draw_text(random, Rows::Jobs),
            parts: draw_table(random, Rows::Devices),
            records: draw_table(random, Rows::Jobs),
            device: draw_device(random),
            budget: random.within(0, 2_000) as u32,
            jobs,
            devices,
            ticks,
        }
    }
}

/// What a call reads, its budget, its memory, and what it writes, the result last. Not every call uses all.
type Call = fn([&[u8]; 3], u32, &mut [u64], [&mut [u8]; 3]) -> u8;

/// A name, what is read, how many bytes are needed of what is written, and the call.
type Function = (
    &'static str,
    fn(&Drawn) -> [&[u8]; 3],
    fn(&Drawn) -> [usize; 3],
    Call,
);

/// Pages for each buffer of a call.
struct Room {
    reads: [Pages; 3],
    memory: Pages,
    writes: [Pages; 3],
}

impl Room {
    fn new() -> Room {
        let pages = |()| Pages::new(LONGEST);
        Room {
            reads: [(); 3].map(pages),
            memory: pages(()),
            writes: [(); 3].map(pages),
        }
    }

    /// How the outcome of a call between the pages is not that of the same call on plain buffers.
    fn differs(
        &mut self,
        random: &mut Random,
        (name, reads, writes, _): &Function,
        call: Call,
        drawn: &Drawn,
    ) -> Option<String> {
        let plain_reads = reads(drawn);
        let mut plain_memory = vec![u64::MAX / 3; random.pick(&[0, 1, 9, 700])];
        let mut plain = writes(drawn).map(|needed| {
            let length = around(random, needed);
            random.bytes(length)
        });
        let mut end = || random.pick(&[End::Front, End::Back]);
        let [one, two, three] = &mut self.reads;
        let reads = [
            &*one.hold(plain_reads[0], end()),
            &*two.hold(plain_reads[1], end()),
            &*three.hold(plain_reads[2], end()),
        ];
        let memory = self.memory.hold(&plain_memory, end());
        let [one, two, three] = &mut self.writes;
        let mut writes = [
            one.hold(&plain[0], end()),
            two.hold(&plain[1], end()),
            three.hold(&plain[2], end()),
        ];
        let said = call(
            reads,
            drawn.budget,
            memory,
            writes.each_mut().map(|held| &mut **held),
        );
        let lent = plain.each_mut().map(|bytes| &mut bytes[..]);
        let expected = call(plain_reads, drawn.budget, &mut plain_memory, lent);
        let is_same = said == expected && writes == plain && *memory == plain_memory[..];
        (!is_same).then(|| format!("{name}: {said} and not {expected}, or other bytes"))
    }
}

/// What is needed, or a little less or more, or nothing.
fn around(random: &mut Random, needed: usize) -> usize {
    match random.within(1, 8) {
        1 => needed.saturating_sub(1),
        2 => needed + random.index(9),
        3 => 0,
        _ => needed,
    }
}

// A line each.
#[rustfmt::skip]
const FUNCTIONS: [Function; 28] = [
    ("floe_check", of_file, |_| [0, 0, RESULT], |[file, ..], _, _, [.., result]| library::check(file, result)),
    ("floe_sizes", of_file, |_| [3, 0, RESULT], |[file, ..], _, _, [out, _, result]| library::sizes(file, out, result)),
    ("floe_fault", of_file, |_| [0, 0, PLACE], |[file, ..], _, _, [.., result]| library::fault(file, result)),
    ("floe_search", of_file, starts, |[file, ..], budget, _, [out, _, result]| library::search(file, budget, out, result)),
    ("floe_search_in", of_file, starts, |[file, ..], budget, memory, [out, _, result]| library::search_in(file, budget, memory, out, result)),
    ("floe_first", of_file, starts, |[file, ..], _, _, [out, _, result]| library::first(file, out, result)),
    ("floe_least", of_file, starts, |[file, ..], budget, memory, [out, _, result]| library::least(file, budget, memory, out, result)),
    ("floe_rows", of_starts, |drawn| [drawn.devices * drawn.ticks, 0, RESULT], |[file, starts, _], _, _, [out, _, result]| library::rows(file, starts, out, result)),
    ("door_verdict", of_starts, |_| [0, 0, RESULT], |[file, starts, _], _, _, [.., result]| library::verdict(file, starts, result)),
    ("door_margins", of_starts, |drawn| [4 * drawn.jobs, 0, RESULT], |[file, starts, _], _, _, [out, _, result]| library::margins(file, starts, out, result)),
    ("door_export_plan", of_starts, |drawn| told(1, |out, result| library::export_plan(&drawn.file, &drawn.starts, out, result)), |[file, starts, _], _, _, [out, _, result]| library::export_plan(file, starts, out, result)),
    ("door_possible", of_file, starts, |[file, ..], budget, _, [out, _, result]| library::possible(file, budget, out, result)),
    ("door_mend", of_starts, |drawn| [2 * drawn.jobs, 6 * drawn.jobs, RESULT], |[file, starts, _], _, _, [out, moved, result]| library::mend(file, starts, out, moved, result)),
    ("door_step", of_starts, |drawn| [4 * drawn.devices, 0, RESULT], |[file, starts, _], _, _, [out, _, result]| library::step(file, starts, out, result)),
    ("door_tables", of_file, |drawn| told(1, |out, result| library::tables(&drawn.file, out, result)), |[file, ..], _, _, [out, _, result]| library::tables(file, out, result)),
    ("door_write", |drawn| [&drawn.tables, &[], &[]], |drawn| told(1, |out, result| library::write(&drawn.tables, out, result)), |[tables, ..], _, _, [out, _, result]| library::write(tables, out, result)),
    ("door_fault", |drawn| [&drawn.tables, &[], &[]], |_| [0, 0, PLACE], |[tables, ..], _, _, [.., result]| library::fault_in_tables(tables, result)),
    ("door_build", of_order, |drawn| told(1, |out, result| library::build(&drawn.order.catalogue, &drawn.order.wanted, &drawn.others, out, result)), |[catalogue, wanted, tables], _, _, [out, _, result]| library::build(catalogue, wanted, tables, out, result)),
    ("door_order_fault", of_order, |_| [0, 0, COUNTED], |[catalogue, wanted, _], _, _, [.., result]| library::order_fault(catalogue, wanted, result)),
    ("door_devices_fault", |drawn| [&drawn.devices_text, &[], &[]], |_| [0, 0, COUNTED], |[text, ..], _, _, [.., result]| library::devices_fault(text, result)),
    ("door_jobs_fault", |drawn| [&drawn.jobs_text, &[], &[]], |_| [0, 0, COUNTED], |[text, ..], _, _, [.., result]| library::jobs_fault(text, result)),
    ("door_import_devices", |drawn| [&drawn.devices_text, &[], &[]], |drawn| told(15, |out, result| library::import_devices(&drawn.devices_text, out, result)), |[text, ..], _, _, [out, _, result]| library::import_devices(text, out, result)),
    ("door_import_jobs", |drawn| [&drawn.jobs_text, &[], &[]], |drawn| told(7, |out, result| library::import_jobs(&drawn.jobs_text, out, result)), |[text, ..], _, _, [out, _, result]| library::import_jobs(text, out, result)),
    ("door_export_devices", |drawn| [&drawn.parts, &[], &[]], |drawn| told(1, |out, result| library::export_devices(&drawn.parts, out, result)), |[parts, ..], _, _, [out, _, result]| library::export_devices(parts, out, result)),
    ("door_export_jobs", |drawn| [&drawn.records, &[], &[]], |drawn| told(1, |out, result| library::export_jobs(&drawn.records, out, result)), |[records, ..], _, _, [out, _, result]| library::export_jobs(records, out, result)),
    ("floe_step_start", |drawn| [&drawn.device, &[], &[]], |_| [RECORD, 0, 0], |[device, ..], word, _, [record, ..]| library::step_start(device, word as u8 & 1, word as u8 & 2, word as u16, known(record))),
    ("floe_step_end", |drawn| [&drawn.device, &[], &[]], |_| [RECORD, 0, 0], |[device, ..], word, _, [record, ..]| library::step_end(device, word as u8 & 1, word as u8 & 2, word as u16, known(record))),
    ("floe_step_pass", |drawn| [&drawn.device, &[], &[]], |_| [RECORD, 0, 0], |[device, ..], word, _, [record, ..]| library::step_pass(device, word as u16, known(record))),
];

/// Mostly one that can be stepped: it sleeps with less power than it moves with, and moves with less than it works with.
fn draw_device(random: &mut Random) -> Vec<u8> {
    let length = around(random, 7);
    let mut bytes = random.bytes(length);
    if length == 7 && !random.one_in(4) {
        (bytes[1], bytes[3], bytes[5]) = (200, 10, 100);
    }
    bytes
}

/// A record whose state is one of the four.
fn known(record: &mut [u8]) -> &mut [u8] {
    if let Some(state) = record.first_mut() {
        *state &= 3;
    }
    record
}

fn of_file(drawn: &Drawn) -> [&[u8]; 3] {
    [&drawn.file, &[], &[]]
}

fn of_starts(drawn: &Drawn) -> [&[u8]; 3] {
    [&drawn.file, &drawn.starts, &[]]
}

fn of_order(drawn: &Drawn) -> [&[u8]; 3] {
    let catalogue::Call {
        catalogue, wanted, ..
    } = &drawn.order;
    [catalogue, wanted, &drawn.others]
}

fn starts(drawn: &Drawn) -> [usize; 3] {
    [2 * drawn.jobs, 0, RESULT]
}

/// Just the bytes that a call writes with more than enough room, by the count that it tells, of so many bytes each.
fn told(each: usize, call: impl Fn(&mut [u8], &mut [u8]) -> u8) -> [usize; 3] {
    let (mut out, mut result) = ([0; 4_096], [0; RESULT]);
    call(&mut out, &mut result);
    let count = u32::from_be_bytes(result[7..].try_into().expect("four bytes"));
    [each * count as usize, 0, RESULT]
}

/// Calls that reach for one byte too many, in the place of every function.
const WRONG: [(&str, Call); 4] = [
    ("reads before", |[given, ..], _, _, _| {
        touch(given.as_ptr().wrapping_sub(1))
    }),
    ("reads behind", |[given, ..], _, _, _| {
        touch(given.as_ptr().wrapping_add(given.len()))
    }),
    ("writes before", |_, _, _, [.., result]| {
        put(result.as_mut_ptr().wrapping_sub(1))
    }),
    ("writes behind", |_, _, _, [.., result]| {
        put(result.as_mut_ptr().wrapping_add(result.len()))
    }),
];

fn touch(place: *const u8) -> u8 {
    // SAFETY: there is none. Beside a page that nobody may touch the process ends here, before it comes to plain buffers.
    unsafe { place.read_volatile() };
    0
}

fn put(place: *mut u8) -> u8 {
    // SAFETY: as above.
    unsafe { place.write_volatile(place.read_volatile()) };
    0
}
