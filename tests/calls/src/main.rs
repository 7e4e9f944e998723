//! `calls [--seed N]`: calls every function of the library as C does, on random files, start times, budgets
//! and lent lengths, and compares the number and every byte of every buffer with the oracle. With a seed all is
//! drawn anew.

mod answers;
mod catalogue;
mod chosen;
mod counted;
mod expected;
mod figures;
mod first;
mod guarded;
mod least;
mod looser;
mod mend;
mod pages;
mod places;
mod possible;
mod searching;
mod sheets;
mod stepping;
mod steps;
mod tails;
mod wide;
mod writing;

use expected::{pairs, Buffers, Outcome, Searched, RESULT};
use linked as library;
use outside::cases::draw;
use outside::cases::random::{add_to_seeds, Random};
use outside::running::readme;
use outside::running::tally::Rows;
use std::collections::BTreeMap;
use std::process::ExitCode;

const SEED: u64 = 14;
const FILES: u64 = 1_500;
/// The stream of the drawn files is another: these draw what goes with a file.
const STREAM: u64 = 1 << 40;

struct Tester {
    random: Random,
    /// The search that is tried.
    search: searching::Search,
    /// What is lent to the search with a memory, and three words more.
    memory: Vec<u64>,
    met: BTreeMap<(&'static str, u8), u64>,
    /// Searches that ran out of their budget with a best at hand.
    cut_short: u64,
    rows: Rows,
    failure: Option<String>,
}

impl Tester {
    fn new(search: searching::Search) -> Tester {
        Tester {
            random: Random::new(SEED, STREAM),
            search,
            memory: Vec::new(),
            met: BTreeMap::new(),
            cut_short: 0,
            rows: Rows::default(),
            failure: None,
        }
    }

    /// A length below, at or above the one that is needed.
    fn length(&mut self, needed: usize) -> usize {
        match self.random.within(1, 8) {
            1 => needed.saturating_sub(1),
            2 => self.random.within(0, needed as u64) as usize,
            3 => needed + self.random.within(1, 40) as usize,
            _ => needed,
        }
    }

    /// Bytes of which each tells its place, so that any that is written shows.
    fn buffers(&mut self, needed: usize) -> Buffers {
        let (lent, result) = (self.length(needed), self.length(RESULT));
        Buffers {
            lent: self.random.bytes(lent),
            result: self.random.bytes(result),
        }
    }

    fn compare(&mut self, name: &'static str, file: &[u8], expected: Outcome, got: Outcome) {
        *self.met.entry((name, expected.number)).or_default() += 1;
        if expected != got && self.failure.is_none() {
            self.failure = Some(format!(
                "{name} on file {file:02X?}\n  expected {expected:02X?}\n  got      {got:02X?}"
            ));
        }
    }

    fn check(&mut self, searched: &Searched) {
        let mut after = self.buffers(0);
        let expected = searched.check(&after);
        let number = library::check(&searched.file, &mut after.result);
        let got = outcome(number, after);
        self.compare("floe_check", &searched.file, expected, got);
    }

    fn sizes(&mut self, searched: &Searched) {
        let mut after = self.buffers(3);
        let expected = searched.sizes(&after);
        let number = library::sizes(&searched.file, &mut after.lent, &mut after.result);
        let got = outcome(number, after);
        self.compare("floe_sizes", &searched.file, expected, got);
    }

    fn search(&mut self, searched: &Searched) {
        let jobs = searched.read.as_ref().map_or(0, |read| read.jobs.len());
        for budget in self.budgets(searched) {
            let mut after = self.buffers(2 * jobs);
            let expected = searched.search(budget, &after);
            let has_best = searched.best_from.is_some_and(|from| from <= budget.into());
            self.cut_short += u64::from(expected.number == 20 && has_best);
            let (lent, result) = (&mut after.lent, &mut after.result);
            let number = (self.search)(&searched.file, budget, lent, result);
            let got = outcome(number, after);
            self.compare("floe_search", &searched.file, expected, got);
        }
    }

    /// None, those around the count as far as it is known, and some well inside it: three anywhere, and two
    /// where a best is at hand already.
    fn budgets(&mut self, searched: &Searched) -> Vec<u32> {
        let count = searched.count as u32;
        let mut budgets = vec![0, count.saturating_sub(1)];
        if searched.is_whole {
            budgets.extend([count, count + 1, u32::MAX]);
        }
        for (from, many) in [(Some(1), 3), (searched.best_from, 2)] {
            if let Some(from) = from.filter(|from| *from < searched.count) {
                let inside = (0..many).map(|_| self.random.within(from, searched.count - 1) as u32);
                budgets.extend(inside);
            }
        }
        budgets
    }

    /// The same with a lent memory of any length, which holds noise or what a search of another file
    /// has left in it. Words after it stay, and so does all of it unless more than 256 vertices are
    /// counted.
    fn search_in(&mut self, searched: &Searched) {
        const KEPT: u64 = 0xA5A5_A5A5_A5A5_A5A5;
        let jobs = searched.read.as_ref().map_or(0, |read| read.jobs.len());
        for budget in self.budgets(searched) {
            if self.memory.is_empty() || self.random.one_in(5) {
                let words = self.random.pick(&[0, 1, 6, 61, 600, 12_288]);
                let random = &mut self.random;
                let noise = (0..words).map(|_| random.within(0, u64::MAX - 1));
                self.memory = noise.chain([KEPT; 3]).collect();
            }
            let mut after = self.buffers(2 * jobs);
            let expected = searched.search(budget, &after);
            let words = self.memory.len() - 3;
            let (memory, kept) = self.memory.split_at_mut(words);
            let before = memory.to_vec();
            let (lent, result) = (&mut after.lent, &mut after.result);
            let number = library::search_in(&searched.file, budget, memory, lent, result);
            assert_eq!(kept, [KEPT; 3], "words after the memory are written to");
            let is_used = matches!(number, 0 | 19 | 20) && searched.count.min(budget.into()) > 256;
            assert!(
                is_used || *memory == before,
                "{number} with {budget} writes to the memory"
            );
            let got = outcome(number, after);
            self.compare("floe_search_in", &searched.file, expected, got);
        }
    }

    fn first(&mut self, searched: &Searched, jobs: usize) {
        let mut after = self.buffers(2 * jobs);
        let expected = searched.first(&after);
        let number = library::first(&searched.file, &mut after.lent, &mut after.result);
        let got = outcome(number, after);
        self.compare("floe_first", &searched.file, expected, got);
    }

    /// Where the least is known. A large tree needs a memory.
    fn least(&mut self, searched: &Searched, jobs: usize) {
        if !searched.is_whole {
            return;
        }
        let mut after = self.buffers(2 * jobs);
        let expected = searched.least(&after);
        let words = match searched.count {
            0..=100_000 => self.random.pick(&[0, 1, 7, 64, 1_000]),
            _ => 100_000,
        };
        let mut memory: Vec<u64> = (0..words).map(|_| self.random.within(0, 1 << 62)).collect();
        let (lent, result) = (&mut after.lent, &mut after.result);
        let number = library::least(&searched.file, u32::MAX, &mut memory, lent, result);
        let got = outcome(number, after);
        self.compare("floe_least", &searched.file, expected, got);
    }

    /// Starts in the jobs' windows, or just outside, or anywhere; or those of the plan. As many as
    /// there are jobs, or not.
    fn starts(&mut self, searched: &Searched) -> Vec<u8> {
        let jobs = searched
            .read
            .as_ref()
            .map_or(&[][..], |request| &request.jobs);
        let mut starts: Vec<u16> = Vec::new();
        let planned = searched.planned.as_ref().filter(|_| self.random.one_in(3));
        for (number, job) in jobs.iter().enumerate() {
            let (release, latest) = (job.release as u16, job.latest() as u16);
            let start = match planned {
                Some(starts) => starts[number] as u16,
                None => self.random.u16(release, latest),
            };
            let many = 6 * jobs.len() as u64;
            starts.push(match self.random.within(1, many.max(1)) {
                1 => release.saturating_sub(1),
                2 => latest + 1,
                3 => self.random.u16(0, u16::MAX),
                _ => start,
            });
        }
        let mut bytes: Vec<u8> = starts
            .iter()
            .flat_map(|start| start.to_be_bytes())
            .collect();
        match self.random.within(1, 24) {
            1 => drop(bytes.pop()),
            2 => bytes.push(0),
            3 => bytes.extend([0, 0]),
            4 => bytes.truncate(bytes.len().saturating_sub(2)),
            5 => bytes = self.random.bytes(64),
            _ => {}
        }
        bytes
    }

    fn rows(&mut self, searched: &Searched, size: usize) {
        let starts = self.starts(searched);
        let mut after = self.buffers(size);
        let expected = searched.rows(&starts, &after);
        if let (0, Ok(request)) = (expected.number, &searched.read) {
            self.rows.add(request, &pairs(&starts));
        }
        let number = library::rows(&searched.file, &starts, &mut after.lent, &mut after.result);
        let got = outcome(number, after);
        self.compare("floe_rows", &searched.file, expected, got);
    }

    fn verdict(&mut self, searched: &Searched) {
        let starts = self.starts(searched);
        let mut after = self.buffers(0);
        let expected = searched.verdict(&starts, &after);
        let number = library::verdict(&searched.file, &starts, &mut after.result);
        let got = outcome(number, after);
        self.compare("door_verdict", &searched.file, expected, got);
    }

    fn margins(&mut self, searched: &Searched, jobs: usize) {
        let starts = self.starts(searched);
        let mut after = self.buffers(4 * jobs);
        let expected = searched.margins(&starts, &after);
        let number = library::margins(&searched.file, &starts, &mut after.lent, &mut after.result);
        let got = outcome(number, after);
        self.compare("door_margins", &searched.file, expected, got);
    }

    fn all(&mut self, searched: &Searched) {
        let (mut jobs, mut size) = (0, 0);
        if let Ok(request) = &searched.read {
            jobs = request.jobs.len();
            size = request.devices.len() * request.horizon as usize;
        }
        self.check(searched);
        self.sizes(searched);
        self.search(searched);
        self.search_in(searched);
        self.first(searched, jobs);
        self.least(searched, jobs);
        for _ in 0..3 {
            self.rows(searched, size);
            self.verdict(searched);
            self.margins(searched, jobs);
            self.plan_sheet(searched);
        }
    }
}

fn outcome(number: u8, after: Buffers) -> Outcome {
    Outcome {
        number,
        lent: after.lent,
        result: after.result,
    }
}

fn test(seed: u64) -> Result<String, String> {
    let failures = figures::failures();
    if !failures.is_empty() {
        return Err(format!("figures that do not come out: {failures:?}"));
    }
    let mut tester = Tester::new(library::search);
    for number in 0..FILES {
        tester.all(&searching::searched(draw(SEED, number)));
        if let Some(failure) = tester.failure {
            return Err(failure);
        }
    }
    searching::test(&mut tester)?;
    wide::test(&mut tester)?;
    chosen::test(&mut tester)?;
    writing::test(&mut tester);
    catalogue::test(&mut tester);
    sheets::test(&mut tester)?;
    if let Some(failure) = tester.failure {
        return Err(failure);
    }
    for (name, met) in [
        ("door_mend", mend::test()?),
        ("door_possible", possible::test()?),
        ("floe_fault", places::test()?),
        ("door_fault", places::test_tables()?),
        ("door_order_fault", counted::test_orders()?),
        ("door_devices_fault", counted::test_devices()?),
        ("door_jobs_fault", counted::test_jobs()?),
        ("floe_first", first::test()?),
        ("floe_least", least::test()?),
        ("door_step", stepping::test()?),
        ("floe_step_start", steps::test(0)?),
        ("floe_step_end", steps::test(1)?),
        ("floe_step_pass", steps::test(2)?),
    ] {
        for (number, count) in met {
            *tester.met.entry((name, number)).or_default() += count;
        }
    }
    for ((name, number), count) in &tester.met {
        println!("{count:7}  {name} {number}");
    }
    print!("{}", tester.rows.report());
    let cut_short = tester.cut_short;
    println!("budgets that run out with a best at hand: {cut_short}");
    if cut_short < searching::LEAST_CUT_SHORT {
        return Err("too few budgets run out with a best at hand".to_string());
    }
    println!("looser windows: {}", looser::test()?);
    println!("rounds on the steps of a device: {}", steps::test_rounds()?);
    answers::hold(&tester.met)?;
    let guarded = guarded::test(seed)?;
    println!("between untouchable pages: {guarded} calls");
    let calls = tester.met.values().sum();
    // What README says is of the seeds that the gate takes.
    if seed == 0 {
        readme::hold(calls, "calls of the library's operations")?;
        readme::hold(guarded, "calls with untouchable pages")?;
    }
    Ok(format!("{calls} calls agree"))
}

/// The seed that is told, and which calls a process makes that this one has begun.
fn arguments() -> Result<(u64, Option<String>), String> {
    let words: Vec<String> = std::env::args().skip(1).collect();
    let number = |word: &str| word.parse().ok();
    let told = match &words.iter().map(String::as_str).collect::<Vec<_>>()[..] {
        [] => Some((0, None)),
        ["--seed", seed] => number(seed).map(|seed| (seed, None)),
        [guarded::WORD, which, seed] => number(seed).map(|seed| (seed, Some(which.to_string()))),
        _ => None,
    };
    told.ok_or_else(|| "usage: calls [--seed N]".to_string())
}

fn main() -> ExitCode {
    let (seed, guarded) = match arguments() {
        Ok(told) => told,
        Err(usage) => {
            println!("{usage}");
            return ExitCode::from(2);
        }
    };
    add_to_seeds(seed);
    if let Some(which) = guarded {
        return guarded::calls(&which);
    }
    match test(seed) {
        Ok(said) => {
            println!("calls: {said}");
            ExitCode::SUCCESS
        }
        Err(reason) => {
            println!("{reason}\ncalls: FAILED");
            ExitCode::FAILURE
        }
    }
}
