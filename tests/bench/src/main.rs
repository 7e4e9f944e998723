//! Plans requests of some million vertices with four plain searches in Rust and with the proved search,
//! and prints vertices per second of each and the proved one's ratio to each plain one. Then what a call
//! takes on requests of few vertices, of the search and of the word whether there is any plan; how long that
//! takes, by a visit and by sets of jobs, beside the search; and of both by the number of jobs.
//!
//! `./bench` at the top builds the proved library and runs all; `./bench COMMIT` races that commit's
//! proved search as well; `./bench recorders` runs the least plans of recorders instead (`recorders`).

mod proved;
mod recorders;
mod requests;

use outside::rivals;
use std::process::ExitCode;
use std::time::{Duration, Instant};

/// Rounds per request. The best of them counts: whatever else the machine does only slows down.
const ROUNDS: usize = 3;

/// What takes a few milliseconds may be held up in each of three rounds.
const QUICK_ROUNDS: usize = 20;

/// What takes microseconds is called so often in a round.
const CALLS: u32 = 500;

/// Every request is planned to its end.
const BUDGET: u32 = u32::MAX;

#[derive(Clone, Copy, Debug, PartialEq, Eq)]
pub struct Outcome {
    number: u8,
    energy: u32,
    count: u32,
}

impl From<rivals::Found> for Outcome {
    fn from(found: rivals::Found) -> Outcome {
        Outcome {
            number: found.number,
            energy: found.energy,
            count: found.count,
        }
    }
}

/// A file and a budget: what comes out.
type Call = fn(&[u8], u32) -> Outcome;

/// A search, and over all requests its vertices and the best times it has had.
struct Racer {
    name: &'static str,
    search: Call,
    total: Run,
}

/// The vertices that a search counted, and how long it took.
#[derive(Clone, Copy, Default)]
struct Run {
    vertices: u64,
    time: Duration,
}

impl Run {
    /// Millions of vertices a second.
    fn speed(self) -> f64 {
        self.vertices as f64 / self.time.as_secs_f64() / 1e6
    }
}

fn racers() -> Vec<Racer> {
    let racer = |name, search| Racer {
        name,
        search,
        total: Run::default(),
    };
    vec![
        racer("anew", |file, budget| {
            rivals::anew::search(file, budget).into()
        }),
        racer("carried", |file, budget| {
            rivals::carried::search(file, budget).into()
        }),
        racer("shaped", |file, budget| {
            rivals::shaped::search(file, budget).into()
        }),
        racer("lean", |file, budget| {
            rivals::lean::search(file, budget).into()
        }),
        #[cfg(feature = "before")]
        racer("before", proved::before),
        racer("proved", proved::search),
    ]
}

/// The racers take turns, so that a slow spell of the machine meets them all. All agree but for an
/// earlier commit's search, whose rules may have been others.
fn race(racers: &[Racer], file: &[u8]) -> Result<Vec<Run>, String> {
    let mut best = vec![Run::default(); racers.len()];
    let mut agreed: Option<Outcome> = None;
    for round in 0..ROUNDS {
        for (racer, best) in racers.iter().zip(&mut best) {
            let begin = Instant::now();
            let outcome = (racer.search)(file, BUDGET);
            let time = begin.elapsed();
            if round == 0 || time < best.time {
                let vertices = outcome.count.into();
                *best = Run { vertices, time };
            }
            if racer.name == "before" {
                continue;
            }
            let agreed = *agreed.get_or_insert(outcome);
            if outcome != agreed {
                return Err(format!("{}: {outcome:?}, not {agreed:?}", racer.name));
            }
        }
    }
    Ok(best)
}

/// One line: vertices, then millions of them per second for each racer, then the ratio of the proved
/// search's speed to that of each other one.
fn line(name: &str, runs: &[Run], racers: &[Racer]) -> String {
    let mut line = format!("{name:30} {:>11} vertices", runs[0].vertices);
    for (racer, run) in racers.iter().zip(runs) {
        line += &format!("  {} {:6.1} M/s", racer.name, run.speed());
    }
    let race: Vec<_> = racers.iter().zip(runs).collect();
    if let [others @ .., (Racer { name: "proved", .. }, proved)] = &race[..] {
        for (racer, run) in others {
            let ratio = proved.speed() / run.speed();
            line += &format!("  proved/{} {ratio:.2}", racer.name);
        }
    }
    line
}

fn bench() -> Result<(), String> {
    let mut racers = racers();
    for request in requests::all() {
        let runs = race(&racers, &request.file)?;
        println!("{}", line(request.name, &runs, &racers));
        for (racer, run) in racers.iter_mut().zip(runs) {
            racer.total.vertices += run.vertices;
            racer.total.time += run.time;
        }
    }
    let totals: Vec<Run> = racers.iter().map(|racer| racer.total).collect();
    println!("{}", line("all", &totals, &racers));
    Ok(())
}

/// The proved calls, each after that of an earlier commit, if one is raced and has it.
fn calls() -> Vec<(&'static str, Call)> {
    vec![
        #[cfg(feature = "before")]
        ("search before", proved::before as Call),
        ("search", proved::search),
        #[cfg(feature = "before_any")]
        ("any plan before", proved::before_any),
        ("any plan", proved::possible),
    ]
}

/// Requests of few vertices: what one call takes, in the best of some rounds in which the calls take
/// turns.
fn small() {
    for request in requests::small() {
        let mut line = format!("{:30}", request.name);
        let calls = calls();
        let mut best = vec![Duration::MAX; calls.len()];
        for _ in 0..QUICK_ROUNDS {
            for ((_, call), best) in calls.iter().zip(&mut best) {
                let begin = Instant::now();
                for _ in 0..CALLS {
                    call(&request.file, BUDGET);
                }
                *best = (*best).min(begin.elapsed() / CALLS);
            }
        }
        let count = proved::search(&request.file, BUDGET).count;
        line += &format!(" {count:>11} vertices");
        for ((name, _), best) in calls.iter().zip(best) {
            line += &format!("  {name} {best:.1?}");
        }
        println!("{line}");
    }
}

/// The best time of some rounds, and what came out.
fn timed(answer: Call, file: &[u8], rounds: usize) -> (Outcome, Duration) {
    let round = |_| {
        let begin = Instant::now();
        (answer(file, BUDGET), begin.elapsed())
    };
    (0..rounds)
        .map(round)
        .min_by_key(|(_, time)| *time)
        .expect("there are rounds")
}

/// Whether there is any plan: vertices and time to the answer, beside the proved search's.
fn answers() {
    let others = [requests::long(), requests::none()];
    for request in requests::all().into_iter().chain(others) {
        let (any, soon) = timed(proved::possible, &request.file, ROUNDS);
        let (first, at_once) = timed(proved::first, &request.file, QUICK_ROUNDS);
        assert_eq!(first.number, any.number, "{}", request.name);
        let (_, late) = timed(proved::search, &request.file, ROUNDS);
        let vertices = any.count.into();
        let speed = Run {
            vertices,
            time: soon,
        }
        .speed();
        println!(
            "{:30} {:>11} vertices  any plan: answer {:2} in {soon:>10.1?}  {speed:6.1} M/s  first plan {at_once:>8.1?}  search {late:>8.1?}",
            request.name, any.count, any.number
        );
    }
}

/// The same by the number of jobs, with a plan and without.
fn answers_by_jobs() {
    for count in [4, 8, 10, 12, 14, 15, 16] {
        for has_plan in [true, false] {
            let file = requests::sliding(count, has_plan);
            let (any, soon) = timed(proved::possible, &file, ROUNDS);
            let (first, at_once) = timed(proved::first, &file, QUICK_ROUNDS);
            assert_eq!((any.number == 0, first.number == 0), (has_plan, has_plan));
            println!(
                "{count:2} jobs, answer {:2}: any plan {:>11} vertices in {soon:>10.1?}  first plan in {at_once:>10.1?}",
                any.number, any.count
            );
        }
    }
}

fn main() -> ExitCode {
    if std::env::args()
        .nth(1)
        .is_some_and(|word| word == "recorders")
    {
        recorders::bench();
        return ExitCode::SUCCESS;
    }
    match bench() {
        Ok(()) => {
            small();
            answers();
            answers_by_jobs();
            ExitCode::SUCCESS
        }
        Err(reason) => {
            println!("bench: FAILED: {reason}");
            ExitCode::FAILURE
        }
    }
}
