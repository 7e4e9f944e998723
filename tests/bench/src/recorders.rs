//! The least plans of recorders: requests made from a seed, lists and rounds from 60 to 4,096 ticks; how
//! long the proved search takes with a lent memory, beside the plain search of the same shape and, as far
//! as it comes to an end, the counted search. Times are the processor's, so that another program on the
//! machine counts for little.

use crate::proved;
use outside::cases::random::Random;
use outside::cases::recorders::{list, round, Fitted, List, Round};
use outside::cases::tables::Tables;
use outside::rivals::{remembering, Found};
use std::time::Duration;

const SEED: u64 = 33;

/// Of each kind.
const REQUESTS: u64 = 8;

/// 64 MiB.
const WORDS: usize = 64 << 17;

/// Where a request takes more vertices than this, it is said and left.
const BUDGET: u32 = 20_000_000;
const COUNTED: u32 = 20_000_000;

/// What answers in less than this is asked again, and its best time taken.
const QUICK: Duration = Duration::from_millis(500);
const ROUNDS: usize = 3;

enum Made {
    List(List),
    Round(Round),
}

struct Kind {
    name: &'static str,
    fitted: Fitted,
    made: Made,
}

impl Kind {
    fn file(&self, number: u64) -> Vec<u8> {
        let mut random = Random::new(SEED, number);
        let tables: Tables = match self.made {
            Made::List(made) => list(&mut random, self.fitted, made),
            Made::Round(made) => round(&mut random, self.fitted, made),
        };
        tables.bytes()
    }
}

/// A list: ticks, jobs, devices, the longest transition, load and window in percent.
const fn of_list(name: &'static str, numbers: (u16, u64, u64, u8, u64, u64)) -> Kind {
    let (horizon, jobs, devices, transition, load, window) = numbers;
    Kind {
        name,
        fitted: Fitted {
            devices,
            transition,
        },
        made: Made::List(List {
            horizon,
            jobs,
            load,
            window,
        }),
    }
}

/// A round: its shortest period and the multiples of it, devices, the longest transition, load in percent.
const fn of_round(
    name: &'static str,
    multiples: &'static [u16],
    numbers: (u16, u64, u8, u64),
) -> Kind {
    let (period, devices, transition, load) = numbers;
    Kind {
        name,
        fitted: Fitted {
            devices,
            transition,
        },
        made: Made::Round(Round {
            period,
            multiples,
            load,
        }),
    }
}

const KINDS: [Kind; 9] = [
    of_list("list 60/6/3", (60, 6, 3, 5, 50, 15)),
    of_list("list 120/12/4", (120, 12, 4, 8, 50, 10)),
    of_list("list 300/12/4", (300, 12, 4, 15, 50, 25)),
    of_list("list 1000/16/4", (1_000, 16, 4, 51, 50, 25)),
    of_list("list 4096/16/8", (4_096, 16, 8, 100, 50, 10)),
    of_round("round 60/7/3", &[1, 2, 4], (15, 3, 3, 50)),
    of_round("round 1000/7/3", &[1, 2, 4], (250, 3, 26, 50)),
    of_round("round 1000/15/4", &[1, 2, 4, 8], (125, 4, 14, 60)),
    of_round("round 4096/15/8", &[1, 2, 4, 8], (512, 8, 50, 60)),
];

/// The time that the processor has worked for this thread.
fn worked() -> Duration {
    #[repr(C)]
    struct Time {
        seconds: i64,
        nanoseconds: i64,
    }
    const THREAD: i32 = 3;
    extern "C" {
        fn clock_gettime(clock: i32, time: *mut Time) -> i32;
    }
    let mut time = Time {
        seconds: 0,
        nanoseconds: 0,
    };
    // SAFETY: the place that is written to is of the kind that the system writes.
    let answer = unsafe { clock_gettime(THREAD, &mut time) };
    assert_eq!(answer, 0, "there is no such clock");
    Duration::new(time.seconds as u64, time.nanoseconds as u32)
}

/// What came out, and the best time that it took.
fn timed<T>(mut work: impl FnMut() -> T) -> (T, Duration) {
    let mut best: Option<(T, Duration)> = None;
    for _ in 0..ROUNDS {
        let begun = worked();
        let done = work();
        let time = worked() - begun;
        if best.as_ref().is_none_or(|(_, best)| time < *best) {
            best = Some((done, time));
        }
        if time > QUICK {
            break;
        }
    }
    best.expect("there are rounds")
}

fn milliseconds(time: Duration) -> String {
    format!("{:9.2} ms", 1e3 * time.as_secs_f64())
}

/// A time, or that it was given up after so long.
fn told(number: u8, time: Duration) -> String {
    match number {
        20 => format!("given up {}", milliseconds(time)),
        _ => milliseconds(time),
    }
}

fn beside(file: &[u8], memory: &mut [u64], plain: &Found, plain_time: Duration) -> String {
    let (least, time) = timed(|| proved::least(file, BUDGET, memory));
    // Where one of the two is given up, there is nothing to compare.
    if least.number != 20 && plain.number != 20 {
        assert_eq!((least.number, least.energy), (plain.number, plain.energy));
    }
    let ratio = plain_time.as_secs_f64() / time.as_secs_f64();
    let (counted, counted_time) = timed(|| proved::search(file, COUNTED));
    if counted.number == 0 && least.number == 0 {
        assert_eq!(counted.energy, least.energy);
    }
    let counted = match counted.number {
        20 => format!("over {COUNTED} vertices"),
        _ => format!("{} vertices {}", counted.count, milliseconds(counted_time)),
    };
    format!(
        "  proved {}  to plain {ratio:.2}  counted {counted}",
        told(least.number, time)
    )
}

fn line(kind: &Kind, number: u64, memory: &mut [u64]) -> String {
    let file = kind.file(number);
    let ((found, entered), time) = timed(|| remembering::search(&file, BUDGET, memory));
    let plain = told(found.number, time);
    let energy = found.energy;
    let beside = beside(&file, memory, &found, time);
    format!(
        "{:16} {number}  energy {energy:>8}  entered {entered:>9}  plain {plain}{beside}",
        kind.name
    )
}

/// One line for each request; then one request of each of the larger kinds by the memory lent.
pub fn bench() {
    let mut memory = vec![0; WORDS];
    println!("64 MiB of memory; ticks/jobs/devices");
    for kind in &KINDS {
        for number in 0..REQUESTS {
            println!("{}", line(kind, number, &mut memory));
        }
    }
    for kind in KINDS.iter().filter(|kind| kind.name.contains("1000/")) {
        for mebibytes in [1, 4, 16, 64] {
            let lent = &mut memory[..mebibytes << 17];
            println!("{mebibytes:2} MiB  {}", line(kind, 0, lent));
        }
    }
}
