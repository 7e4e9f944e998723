//! The place of a refusal, as C asks for it, held to the oracle's reader, which knows the place that it
//! called for last: on drawn files, valid and damaged, of all three kinds, on every front of some of
//! them, on drawn tables, and on result buffers of every length. Every byte is compared.

use crate::expected::SHUT;
use crate::library;
use crate::tails::{is_blank, longer, BLANK};
use linked::PLACE;
use outside::cases::random::Random;
use outside::cases::{draw, draw_of, Kind};
use outside::oracle::request::{fault, Fault, Place};
use outside::oracle::writing;
use std::collections::{BTreeMap, BTreeSet};

const SEED: u64 = 37;
const FILES: u64 = 12_000;
const TABLES: u64 = 12_000;
/// How many files there are of each of these kinds of which every front is asked about.
const CUT: u64 = 20;
const OF_CUT: [Kind; 5] = [
    Kind::Jobs,
    Kind::Tasks,
    Kind::Second,
    Kind::Third,
    Kind::ThirdFault,
];

type Call = fn(&[u8], &mut [u8]) -> u8;

/// The numbers met and how often; or the first call that is not as it must be.
pub fn test() -> Result<BTreeMap<u8, u64>, String> {
    let met = run(library::fault)?;
    for (name, wrong) in WRONG {
        if run(wrong).is_ok() {
            return Err(format!("not found: a place with {name}"));
        }
    }
    Ok(met)
}

fn run(call: Call) -> Result<BTreeMap<u8, u64>, String> {
    let mut tester = Tester {
        call,
        numbers: BTreeMap::new(),
        places: BTreeSet::new(),
    };
    for number in 0..FILES {
        tester.compare(&draw(SEED, number).file, number)?;
    }
    for kind in OF_CUT {
        for number in 0..CUT {
            let file = draw_of(kind, SEED, number).file;
            for length in 0..=file.len() {
                tester.compare(&file[..length], number + length as u64)?;
            }
        }
    }
    tester.has_all()?;
    Ok(tester.numbers)
}

struct Tester {
    call: Call,
    numbers: BTreeMap<u8, u64>,
    /// Each number with what it was told at, and with how many bytes.
    places: BTreeSet<(u8, u8, usize)>,
}

impl Tester {
    fn compare(&mut self, file: &[u8], number: u64) -> Result<(), String> {
        let expected = fault(file);
        let mut result = buffer(number);
        let number = (self.call)(file, &mut result);
        *self.numbers.entry(number).or_default() += 1;
        if let Some(fault) = expected {
            let (code, _) = coded(fault.place);
            let bytes = match fault.place {
                Place::End => 0,
                _ => fault.to - fault.from,
            };
            self.places.insert((fault.number, code, bytes));
        }
        if is_told(expected, number, &result) {
            return Ok(());
        }
        Err(format!(
            "floe_fault on file {file:02X?}\n  expected {expected:?}\n  got      {number} {result:02X?}"
        ))
    }

    /// Every number was told at every place where it can be, with as many bytes as it can have.
    fn has_all(&self) -> Result<(), String> {
        let missing: Vec<_> = told_at()
            .into_iter()
            .filter(|told| !self.places.contains(told))
            .collect();
        let others: Vec<_> = self.places.difference(&told_at()).copied().collect();
        if missing.is_empty() && others.is_empty() {
            return Ok(());
        }
        Err(format!(
            "floe_fault: number, place and bytes that never came {missing:?}, that may not come {others:?}"
        ))
    }
}

/// A result buffer that is shorter than a place, as long or longer.
fn buffer(number: u64) -> Vec<u8> {
    let more = number as usize / 8;
    let length = match number % 8 {
        0 => PLACE - 1,
        1 => more % PLACE,
        2 => PLACE + more % 5,
        _ => PLACE,
    };
    vec![BLANK; length]
}

/// The same of tables: the door is shut to a short buffer, and to what are no tables.
pub fn test_tables() -> Result<BTreeMap<u8, u64>, String> {
    let mut met = BTreeMap::new();
    for number in 0..TABLES {
        let given = writing::draw(&mut Random::new(SEED, number));
        let mut tables = given.bytes();
        let mut result = buffer(number);
        let is_spoilt = number % 16 == 7;
        if is_spoilt {
            tables.push(0);
        }
        let said = library::fault_in_tables(&tables, &mut result);
        *met.entry(said).or_default() += 1;
        let expected = writing::fault(&given);
        let is_right = if is_spoilt || result.len() < PLACE {
            said == SHUT && is_blank(&result)
        } else {
            is_told(expected, said, &result)
        };
        if !is_right {
            return Err(format!(
                "door_fault on tables {tables:02X?}\n  expected {expected:?}\n  got      {said} {result:02X?}"
            ));
        }
    }
    Ok(met)
}

/// By the rules: each number, the code of the place that it is told at, and the bytes of it; of the end
/// these are any.
fn told_at() -> BTreeSet<(u8, u8, usize)> {
    let mut all = BTreeSet::from([
        (1, 1, 2),
        (1, 2, 1),
        (1, 4, 1),
        (1, 5, 5),
        (1, 6, 1),
        (1, 7, 7),
        (2, 8, 0),
        (3, 2, 1),
        (6, 4, 1),
        (7, 5, 5),
        (8, 5, 5),
        (9, 5, 5),
        (9, 7, 7),
        (10, 6, 1),
        (11, 6, 1),
        (12, 6, 1),
        (13, 7, 7),
    ]);
    // Device records of the first and the second kind, and those of one to four levels.
    for size in [7, 10, 8, 12, 14] {
        all.extend([(1, 3, size), (5, 3, size)]);
    }
    // 4 and 26 come before the powers that a level count calls for.
    all.extend([(1, 3, 6), (4, 3, 6), (4, 3, 7), (4, 3, 10), (26, 3, 6)]);
    all
}

/// The code of a place, and the number of its record.
fn coded(place: Place) -> (u8, usize) {
    match place {
        Place::Horizon => (1, 0),
        Place::DeviceCount => (2, 0),
        Place::Device(number) => (3, number),
        Place::TaskCount => (4, 0),
        Place::Task(number) => (5, number),
        Place::JobCount => (6, 0),
        Place::Job(number) => (7, number),
        Place::End => (8, 0),
    }
}

/// The outcome is that of this place: of an accepted file eighteen zeros; with too little room nothing
/// is written, and an accepted file is 15.
fn is_told(expected: Option<Fault>, number: u8, result: &[u8]) -> bool {
    let refused = expected.map_or(0, |fault| fault.number);
    if result.len() < PLACE {
        let said = if refused == 0 { 15 } else { refused };
        return number == said && is_blank(result);
    }
    let mut told = vec![0; PLACE];
    if let Some(fault) = expected {
        let (code, record) = coded(fault.place);
        told[0] = code;
        told[1] = record as u8;
        told[2..10].copy_from_slice(&(fault.from as u64).to_be_bytes());
        told[10..18].copy_from_slice(&(fault.to as u64).to_be_bytes());
    }
    number == refused && result == longer(&told, result.len() - PLACE)
}

/// Calls that are wrong in one way, to see that the comparison finds it.
const WRONG: [(&str, Call); 4] = [
    ("the record after", |file, result| {
        let number = library::fault(file, result);
        if number != 0 && result.len() >= PLACE && [3, 5, 7].contains(&result[0]) {
            result[1] += 1;
        }
        number
    }),
    ("one byte more", |file, result| {
        let number = library::fault(file, result);
        if number != 0 && result.len() >= PLACE {
            result[17] = result[17].wrapping_add(1);
        }
        number
    }),
    ("the count in place of a job", |file, result| {
        let number = library::fault(file, result);
        if result.len() >= PLACE && result[0] == 7 {
            result[0] = 6;
        }
        number
    }),
    ("the bytes after a mark", |file, result| {
        let number = library::fault(file, result);
        if result.len() >= PLACE && file.starts_with(&[0xFF, 3]) && number != 0 {
            result[9] -= 2;
        }
        number
    }),
];
