//! Stepping through a round by its door, held to a run of every device tick by tick
//! (`outside::oracle::stepping`).

use crate::expected::{RESULT, SHUT};
use crate::library;
use crate::tails::{hand_back, is_blank, longer, BLANK};
use outside::cases::random::Random;
use outside::oracle::stepping::{by_bytes, draw, ends, run};
use std::collections::BTreeMap;

const SEED: u64 = 90;
const CALLS: u64 = 20_000;
const AT_ENDS: u64 = 500;
const SHUT_CALLS: u64 = 1_000;

/// A figure: name, file, starts, the number, the horizon, and what each device spends.
type Figure = (
    &'static str,
    &'static str,
    &'static [u16],
    u8,
    u16,
    &'static [u32],
);

const P3: &str = "00050101000500010003000100000005000201";

const FIGURES: [Figure; 8] = [
    ("i1", P3, &[0], 0, 5, &[15]),
    ("i2", P3, &[1], 0, 5, &[19]),
    ("i3", P3, &[3], 0, 5, &[25]),
    ("i4", "000501010005000100030000", &[], 0, 5, &[25]),
    (
        "i5",
        "002d0501000500010003010005000100030100050001000301000500010003010005000100030008\
         000000050003040002000a000702000b0014000611001400190004080014001e000515001e0023000300\
         001f00260004130028002d000200",
        &[0, 3, 11, 20, 24, 30, 33, 40],
        0,
        45,
        &[139, 115, 95, 75, 139],
    ),
    (
        "i7",
        "000c0102000500010003000300000003000201000200060003000006000c000201",
        &[0, 2, 6],
        0,
        12,
        &[48],
    ),
    (
        "i12",
        "000c01020005000100030002000000030001010008000c000201",
        &[0, 8],
        24,
        0,
        &[],
    ),
    ("i14", "ff02000c0000010000000c000200", &[0], 25, 0, &[]),
];

/// A figure by the door, with an energy more lent than there are devices.
fn figure((name, digits, starts, number, horizon, spent): Figure) -> Result<(), String> {
    let byte = |at: usize| u8::from_str_radix(&digits[at..at + 2], 16).expect("two digits");
    let file: Vec<u8> = (0..digits.len()).step_by(2).map(byte).collect();
    let starts: Vec<u8> = starts
        .iter()
        .flat_map(|start| start.to_be_bytes())
        .collect();
    let (mut out, mut result) = (vec![BLANK; 24], vec![BLANK; RESULT]);
    let got = library::step(&file, &starts, &mut out, &mut result);
    let energies: Vec<u8> = spent
        .iter()
        .flat_map(|energy| energy.to_be_bytes())
        .collect();
    let energy: u32 = spent.iter().sum();
    let told = [
        &[0],
        &horizon.to_be_bytes()[..],
        &energy.to_be_bytes(),
        &[0; 4],
    ]
    .concat();
    let (written, kept) = out.split_at(energies.len());
    if got == number && written == energies && is_blank(kept) && result == told {
        return Ok(());
    }
    Err(format!(
        "{name} does not come out: {got} {out:?} {result:?}"
    ))
}

/// The numbers met and how often, 255 among them; or the first call that is not as it must be.
pub fn test() -> Result<BTreeMap<u8, u64>, String> {
    FIGURES.into_iter().try_for_each(figure)?;
    let mut met = run(SEED, CALLS, by_bytes(with_tails))?;
    if met[&0] < CALLS / 3 {
        return Err(format!("too few rounds are stepped: {met:?}"));
    }
    let (met_at_ends, ends) = ends::run(SEED, AT_ENDS, by_bytes(with_tails))?;
    if ends.least() < AT_ENDS / 10 {
        return Err(format!("too few rounds are at the ends: {ends:?}"));
    }
    for (number, count) in met_at_ends {
        *met.entry(number).or_default() += count;
    }
    for number in 0..SHUT_CALLS {
        shut(&mut Random::new(SEED, number))?;
    }
    for (name, wrong) in WRONG {
        if run(SEED, CALLS, by_bytes(wrong)).is_ok() {
            return Err(format!("not found: a stepping with {name}"));
        }
    }
    met.insert(SHUT, SHUT_CALLS);
    Ok(met)
}

/// The door on buffers that are longer, by too little for an energy more: these bytes stay. The
/// result buffer is full before the call, so that each of the eleven bytes has to be written.
fn with_tails(file: &[u8], starts: &[u8], out: &mut [u8], result: &mut [u8]) -> u8 {
    let tail = file.iter().fold(0, |sum, &byte| sum + usize::from(byte));
    let mut long_out = longer(out, tail % 4);
    let mut long_result = vec![BLANK; RESULT + tail / 4 % 3];
    let number = library::step(file, starts, &mut long_out, &mut long_result);
    hand_back(out, &long_out);
    hand_back(result, &long_result);
    number
}

/// A drawn call with half a start more or with a short result buffer: 255, and nothing is written.
fn shut(random: &mut Random) -> Result<(), String> {
    let call = draw(random);
    let starts = call.starts.iter().flat_map(|start| start.to_be_bytes());
    let mut starts: Vec<u8> = starts.collect();
    let mut result = vec![BLANK; RESULT];
    match random.within(1, 3) {
        1 => starts.push(0),
        2 => result.truncate(random.index(RESULT)),
        _ => {
            starts.push(0);
            result.pop();
        }
    }
    let mut out = vec![BLANK; 40];
    let number = library::step(&call.file, &starts, &mut out, &mut result);
    if number == SHUT && is_blank(&out) && is_blank(&result) {
        return Ok(());
    }
    Err(format!(
        "door_step on file {:02X?} is not shut: {number}",
        call.file
    ))
}

type Door = fn(&[u8], &[u8], &mut [u8], &mut [u8]) -> u8;

/// Doors that go wrong after the right call. The comparison must find each.
const WRONG: [(&str, Door); 4] = [
    (
        "the low byte of an energy first",
        |file, starts, out, result| {
            let number = library::step(file, starts, out, result);
            if number == 0 && out.len() >= 4 {
                out[..4].reverse();
            }
            number
        },
    ),
    (
        "an energy after the last device",
        |file, starts, out, result| {
            let number = library::step(file, starts, out, result);
            let after = 4 * usize::from(file.get(2).copied().unwrap_or(0));
            if let (0, Some(next)) = (number, out.get_mut(after)) {
                *next ^= 1;
            }
            number
        },
    ),
    (
        "an energy written where a job is too short",
        |file, starts, out, result| {
            let number = library::step(file, starts, out, result);
            if let (24, Some(first)) = (number, out.first_mut()) {
                *first ^= 1;
            }
            number
        },
    ),
    (
        "the job of an overlap not told",
        |file, starts, out, result| {
            let number = library::step(file, starts, out, result);
            if number == 18 {
                result[0] = 0;
            }
            number
        },
    ),
];
