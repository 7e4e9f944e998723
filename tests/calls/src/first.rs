//! The first of all plans, as C asks for it, held to the full listing and, on large requests, to the
//! sets of jobs (`outside::oracle::first`); and beside the door that visits the tree.

use crate::expected::RESULT;
use crate::library;
use crate::tails::{hand_back, longer, met, BLANK};
use outside::oracle::first::{by_bytes, run, run_large};
use std::cell::Cell;
use std::collections::BTreeMap;
use std::thread;

const SEED: u64 = 32;
const REQUESTS: u64 = 3_000;
const LARGE: u64 = 300;

/// The numbers met and how often; or the first call that is not as it must be.
pub fn test() -> Result<BTreeMap<u8, u64>, String> {
    let mut came = run(SEED, REQUESTS, by_bytes(with_tails))?.numbers;
    let beside = Beside::default();
    let large = run_large(
        SEED,
        LARGE,
        by_bytes(|file, starts, result| beside.call(file, starts, result)),
    )?;
    beside.is_telling(large.numbers)?;
    for (came, more) in came.iter_mut().zip(large.numbers) {
        *came += more;
    }
    for (name, wrong) in WRONG {
        if run(SEED, REQUESTS, by_bytes(wrong)).is_ok() {
            return Err(format!("not found: a first plan with {name}"));
        }
    }
    on_a_small_stack()?;
    Ok(met(came, 0))
}

/// The call on buffers that are longer by some bytes, which stay, and on a result buffer that is full
/// before it, so that each of the eleven bytes has to be written.
fn with_tails(file: &[u8], starts: &mut [u8], result: &mut [u8]) -> u8 {
    let tail = file.iter().fold(0, |sum, &byte| sum + usize::from(byte));
    let mut long_starts = longer(starts, tail % 2);
    let mut long_result = vec![BLANK; RESULT + tail / 2 % 3];
    let number = library::first(file, &mut long_starts, &mut long_result);
    hand_back(starts, &long_starts);
    hand_back(result, &long_result);
    number
}

/// What was asked of others about large requests: every plan is judged, and the visit of the tree is
/// asked too, which may be at its budget's end.
#[derive(Default)]
struct Beside {
    judged: Cell<u64>,
    visited: Cell<u64>,
    unreached: Cell<u64>,
}

impl Beside {
    const BUDGET: u32 = 200_000;

    fn call(&self, file: &[u8], starts: &mut [u8], result: &mut [u8]) -> u8 {
        let mut visited = starts.to_vec();
        let number = with_tails(file, starts, result);
        if number == 0 {
            let mut energy = [0; RESULT];
            let jobs = usize::from(file[job_count_place(file)]);
            let verdict = library::verdict(file, &starts[..2 * jobs], &mut energy);
            assert_eq!(verdict, 0, "judged {verdict}: {starts:?} for {file:?}");
            add(&self.judged);
        }
        let mut told = [0; RESULT];
        let by_visit = library::possible(file, Self::BUDGET, &mut visited, &mut told);
        if by_visit == 20 {
            add(&self.unreached);
        } else {
            assert_eq!((by_visit, &visited[..]), (number, &starts[..]), "{file:?}");
            add(&self.visited);
        }
        number
    }

    /// Whether each kind came often enough.
    fn is_telling(&self, came: [u64; 27]) -> Result<(), String> {
        let (yes, no) = (came[0], came[19]);
        let (judged, visited, unreached) =
            (self.judged.get(), self.visited.get(), self.unreached.get());
        println!(
            "large requests: {yes} with a plan, {no} without; the visit answers {visited} of them, and {unreached} are beyond its budget"
        );
        let is_telling = judged == yes && no * 4 > yes + no && yes > no && unreached * 10 > LARGE;
        is_telling
            .then_some(())
            .ok_or_else(|| "large requests that tell too little".to_string())
    }
}

fn add(count: &Cell<u64>) {
    count.set(count.get() + 1);
}

/// In a file of the first kind without tasks: after the devices and the task count.
fn job_count_place(file: &[u8]) -> usize {
    3 + 7 * usize::from(file[2]) + 1
}

/// What include/floebucket.h says of the stack, with room for what a thread of this program needs
/// itself: a call that needs more ends the program.
fn on_a_small_stack() -> Result<(), String> {
    // Sixteen jobs one after the other, each with a window of its own.
    let mut file = vec![16, 0, 0, 0, 16];
    for job in 0u16..16 {
        for number in [256 * job, 256 * job + 256, 250] {
            file.extend(number.to_be_bytes());
        }
        file.push(0);
    }
    let calls: [(usize, Call); 3] = [
        (160, library::first),
        (256, |file, starts, result| {
            library::search(file, 100_000, starts, result)
        }),
        (160, |file, starts, result| {
            library::search_in(file, 100_000, &mut [1; 600], starts, result)
        }),
    ];
    for (stack, call) in calls {
        let file = file.clone();
        let thread = thread::Builder::new().stack_size(stack * 1024);
        let thread = thread.spawn(move || call(&file, &mut [0; 32], &mut [0; RESULT]));
        let number = thread.map_err(|fault| fault.to_string())?.join();
        let Ok(0 | 20) = number else {
            return Err(format!("on a stack of {stack} KiB: {number:?}"));
        };
    }
    Ok(())
}

type Call = fn(&[u8], &mut [u8], &mut [u8]) -> u8;

/// Calls that go wrong about the right one. The comparison must find each.
const WRONG: [(&str, Call); 3] = [
    ("the vertices of a visit", |file, starts, result| {
        library::possible(file, 100_000, starts, result)
    }),
    (
        "a start written past the last job",
        |file, starts, result| {
            let number = library::first(file, starts, result);
            if let (0, Some(last)) = (number, starts.last_mut()) {
                *last ^= 1;
            }
            number
        },
    ),
    (
        "starts written where there is no plan",
        |file, starts, result| {
            let number = library::first(file, starts, result);
            if let (19, Some(first)) = (number, starts.first_mut()) {
                *first ^= 1;
            }
            number
        },
    ),
];
