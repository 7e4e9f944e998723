//! The plan of least energy with a lent memory, as C asks for it, held to the full listing and, on large
//! requests, to the layers (`outside::oracle::least`); beside the counted search, as far as that comes to an
//! end; and every large plan judged, by its rows too.

use crate::expected::RESULT;
use crate::library;
use crate::tails::{hand_back, longer, met, BLANK};
use outside::cases::random::Random;
use outside::cases::recorders::{self, Fitted, List, Round};
use outside::oracle::least::{by_bytes, run, run_large};
use outside::oracle::looser::{self, Found};
use outside::oracle::request::{read, Request};
use std::cell::RefCell;
use std::collections::BTreeMap;
use std::thread;

const SEED: u64 = 33;
const REQUESTS: u64 = 2_500;
const LARGE: u64 = 500;
const RECORDERS: u64 = 60;
const LOOSER: u64 = 120;

/// One mebibyte.
const WORDS: usize = 1 << 17;

/// The numbers met and how often; or the first call that is not as it must be.
pub fn test() -> Result<BTreeMap<u8, u64>, String> {
    let mut came = run(SEED, REQUESTS, by_bytes(with_tails))?.numbers;
    let large = run_large(SEED, LARGE, by_bytes(with_tails))?;
    println!(
        "large requests by layers: {} plans, {} requests of them rounds; {} beyond the layers",
        large.numbers[0], large.rounds, large.beyond
    );
    if large.numbers[0] < LARGE || large.rounds < LARGE / 10 {
        return Err("large requests that tell too little".to_string());
    }
    for (came, more) in came.iter_mut().zip(large.numbers) {
        *came += more;
    }
    came[0] += beside_the_search()?;
    looser_windows()?;
    for (name, wrong) in WRONG {
        if run(SEED, REQUESTS, by_bytes(wrong)).is_ok() {
            return Err(format!("not found: a least plan with {name}"));
        }
    }
    on_a_small_stack()?;
    Ok(met(came, 0))
}

/// The call on buffers that are longer by some bytes, which stay, and on a result buffer that is full
/// before it, so that each of the eleven bytes has to be written. Words after the memory stay too.
fn with_tails(
    file: &[u8],
    budget: u32,
    memory: &mut [u64],
    starts: &mut [u8],
    result: &mut [u8],
) -> u8 {
    const KEPT: u64 = 0xA5A5_A5A5_A5A5_A5A5;
    let tail = file.iter().fold(0, |sum, &byte| sum + usize::from(byte));
    let mut long_starts = longer(starts, tail % 2);
    let mut long_result = vec![BLANK; RESULT + tail / 2 % 3];
    let mut long_memory = [&*memory, &[KEPT; 3]].concat();
    let lent = &mut long_memory[..memory.len()];
    let number = library::least(file, budget, lent, &mut long_starts, &mut long_result);
    hand_back(starts, &long_starts);
    hand_back(result, &long_result);
    let (front, kept) = long_memory.split_at(memory.len());
    assert_eq!(kept, [KEPT; 3], "words after the memory are written to");
    memory.copy_from_slice(front);
    number
}

/// A plan: its energy, and the start times of all jobs, two bytes each.
#[derive(Debug, PartialEq, Eq)]
struct Plan {
    energy: u32,
    starts: Vec<u8>,
}

/// The plan that a call gives, or its number.
fn plan(request: &Request, call: impl Fn(&mut [u8], &mut [u8]) -> u8) -> Result<Plan, u8> {
    let mut starts = vec![0; 2 * request.jobs.len()];
    let mut result = [0; RESULT];
    match call(&mut starts, &mut result) {
        0 => Ok(Plan {
            energy: energy(&result),
            starts,
        }),
        number => Err(number),
    }
}

fn energy(result: &[u8]) -> u32 {
    u32::from_be_bytes(result[3..7].try_into().expect("four bytes"))
}

/// Lists and rounds of which the counted search ends on some.
fn recorder(random: &mut Random) -> Vec<u8> {
    let fitted = Fitted {
        devices: random.within(3, 6),
        transition: random.pick(&[3, 8, 20]),
    };
    let tables = if random.one_in(3) {
        let round = Round {
            period: random.u16(5, 60),
            multiples: random.pick(&[&[1, 2, 4], &[1, 2, 2], &[1, 3]]),
            load: random.within(20, 50),
        };
        recorders::round(random, fitted, round)
    } else {
        let list = List {
            horizon: random.u16(60, 400),
            jobs: random.within(6, 14),
            load: random.within(40, 80),
            window: random.within(1, 15),
        };
        recorders::list(random, fitted, list)
    };
    tables.bytes()
}

/// Where the counted search ends, energy and starts are the same; with less memory and another budget
/// too; and every plan is judged: feasible, at this energy, and its rows cost as much.
fn beside_the_search() -> Result<u64, String> {
    const BUDGET: u32 = 3_000_000;
    let mut memory = vec![1; WORDS];
    let (mut plans, mut searched) = (0, 0);
    for number in 0..RECORDERS {
        let file = recorder(&mut Random::new(SEED, number));
        let request = read(&file).expect("an accepted file");
        let mut least = |budget, words: usize| {
            let memory = RefCell::new(&mut memory[..words]);
            plan(&request, |starts, result| {
                library::least(&file, budget, &mut memory.borrow_mut(), starts, result)
            })
        };
        let found = least(u32::MAX, WORDS).map_err(|number| format!("{number} for {file:?}"))?;
        plans += 1;
        match least(BUDGET, WORDS / 8) {
            Err(20) => {}
            other if other.as_ref() == Ok(&found) => {}
            other => return Err(format!("{other:?} and not {found:?} for {file:?}")),
        }
        let counted = plan(&request, |starts, result| {
            library::search(&file, BUDGET, starts, result)
        });
        match counted {
            Err(20) => {}
            Ok(counted) if counted == found => searched += 1,
            other => return Err(format!("{found:?}, searched {other:?} for {file:?}")),
        }
        judged(&file, &request, &found)?;
    }
    println!("recorders: {plans} least plans judged, {searched} of them beside the counted search");
    if searched * 4 < plans || searched == plans {
        return Err("recorders that tell too little".to_string());
    }
    Ok(plans)
}

fn judged(file: &[u8], request: &Request, plan: &Plan) -> Result<(), String> {
    let mut result = [0; RESULT];
    let verdict = library::verdict(file, &plan.starts, &mut result);
    if (verdict, energy(&result)) != (0, plan.energy) {
        return Err(format!("{plan:?} is judged {verdict} for {file:?}"));
    }
    let mut rows = vec![0; request.devices.len() * request.horizon as usize];
    let number = library::rows(file, &plan.starts, &mut rows, &mut result);
    if (number, energy(&result)) != (0, plan.energy) {
        return Err(format!("{plan:?} has other rows for {file:?}"));
    }
    Ok(())
}

/// On lists of a recorder's size looser windows never cost more.
fn looser_windows() -> Result<(), String> {
    const BUDGET: u32 = 400_000;
    let memory = RefCell::new(vec![1; WORDS]);
    let met = looser::run_large(SEED, LOOSER, |file| {
        let (mut starts, mut result) = ([0; 32], [0; RESULT]);
        let memory = &mut memory.borrow_mut();
        let number = library::least(file, BUDGET, memory, &mut starts, &mut result);
        Found {
            number,
            energy: energy(&result).into(),
            count: 0,
        }
    })?;
    println!("looser windows of recorders: {met:?}");
    let is_telling = met.pairs * 2 > LOOSER && met.cheaper * 4 > met.pairs && met.as_dear > 0;
    is_telling
        .then_some(())
        .ok_or_else(|| "looser windows that tell too little".to_string())
}

/// What include/floebucket.h says of the stack, with room for what a thread of this program needs
/// itself: a call that needs more ends the program.
fn on_a_small_stack() -> Result<(), String> {
    const STACK: usize = 440 * 1024;
    // Sixteen jobs at the end of the longest round, so that each waits for long.
    let mut file = vec![16, 0, 1, 20, 0, 9, 0, 1, 0, 4, 0, 16];
    for job in 0u16..16 {
        for number in [200 * job, 4096 - 40 * (15 - job), 2] {
            file.extend(number.to_be_bytes());
        }
        file.push(1);
    }
    let calls = move || {
        let (mut starts, mut result) = ([0; 32], [0; RESULT]);
        let mut memory = vec![1; 4 * WORDS];
        library::least(&file, 2_000_000, &mut memory, &mut starts, &mut result)
    };
    let thread = thread::Builder::new().stack_size(STACK).spawn(calls);
    let number = thread.map_err(|fault| fault.to_string())?.join();
    match number {
        Ok(0 | 20) => Ok(()),
        other => Err(format!("on a small stack: {other:?}")),
    }
}

type Call = fn(&[u8], u32, &mut [u64], &mut [u8], &mut [u8]) -> u8;

/// Calls that go wrong about the right one. The comparison must find each.
const WRONG: [(&str, Call); 6] = [
    (
        "the vertices of the counted search",
        |file, _, _, starts, result| library::search(file, u32::MAX, starts, result),
    ),
    (
        "the first plan's start times",
        |file, budget, memory, starts, result| {
            let number = library::least(file, budget, memory, starts, result);
            if number == 0 {
                let mut other = [0; RESULT];
                return library::first(file, starts, &mut other);
            }
            number
        },
    ),
    (
        "starts written where it is given up",
        |file, budget, memory, starts, result| {
            let number = library::least(file, budget, memory, starts, result);
            if let (20, Some(first)) = (number, starts.first_mut()) {
                *first ^= 1;
            }
            number
        },
    ),
    (
        "a memory written to where the file is refused",
        |file, budget, memory, starts, result| {
            let number = library::least(file, budget, memory, starts, result);
            if let (1, Some(word)) = (number, memory.first_mut()) {
                *word ^= 1;
            }
            number
        },
    ),
    (
        "a word given up with a budget that just covers the visiting order",
        |file, budget, memory, starts, result| {
            let (mut lent, mut told) = (starts.to_vec(), [0; RESULT]);
            let searched = library::search(file, budget, &mut lent, &mut told);
            let number = library::least(file, budget, memory, starts, result);
            if (searched, number) == (0, 0) && told[7..] == budget.to_be_bytes() {
                result.fill(0);
                result[7..].copy_from_slice(&budget.to_be_bytes());
                return 20;
            }
            number
        },
    ),
    (
        "a word given up for every plan",
        |file, budget, memory, starts, result| {
            let mut lent = starts.to_vec();
            let number = library::least(file, budget, memory, &mut lent, result);
            if number == 0 {
                result.fill(0);
                result[7..].copy_from_slice(&budget.to_be_bytes());
                return 20;
            }
            number
        },
    ),
];
