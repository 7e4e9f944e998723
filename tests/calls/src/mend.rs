//! Mending through its door, held to every schedule in the order given (`outside::oracle::mend`).

use crate::expected::{RESULT, SHUT};
use crate::library;
use crate::tails::{self, hand_back, is_blank, longer, BLANK};
use outside::cases::random::Random;
use outside::oracle::mend::{by_bytes, draw, run};
use std::collections::BTreeMap;

const SEED: u64 = 18;
const CALLS: u64 = 20_000;
const SHUT_CALLS: u64 = 1_000;

/// The numbers met and how often, 255 among them; or the first call that is not as it must be.
pub fn test() -> Result<BTreeMap<u8, u64>, String> {
    let found = run(SEED, CALLS, by_bytes(with_tails))?;
    let is_of_all_kinds = found.mended.iter().all(|&mended| mended > 300);
    if found.moved < 1_000 || found.unmoved < 100 || !is_of_all_kinds {
        return Err(format!("too few schedules are mended: {found:?}"));
    }
    for number in 0..SHUT_CALLS {
        shut(&mut Random::new(SEED, number))?;
    }
    for (name, wrong) in WRONG {
        if run(SEED, CALLS, by_bytes(wrong)).is_ok() {
            return Err(format!("not found: a mending with {name}"));
        }
    }
    Ok(tails::met(found.numbers, SHUT_CALLS))
}

/// The door on buffers that are longer, by too little for a place more or by some bytes: these stay.
/// The result buffer is full before the call, so that each of the eleven bytes has to be written.
fn with_tails(
    file: &[u8],
    given: &[u8],
    out: &mut [u8],
    moved: &mut [u8],
    result: &mut [u8],
) -> u8 {
    let tail = file.iter().fold(0, |sum, &byte| sum + usize::from(byte));
    let mut long_out = longer(out, tail % 2);
    let mut long_moved = longer(moved, tail / 2 % 2);
    let mut long_result = vec![BLANK; RESULT + tail / 4 % 3];
    let number = library::mend(
        file,
        given,
        &mut long_out,
        &mut long_moved,
        &mut long_result,
    );
    hand_back(out, &long_out);
    hand_back(moved, &long_moved);
    hand_back(result, &long_result);
    number
}

/// A drawn call with half a start more or with a short result buffer: 255, and nothing is written.
fn shut(random: &mut Random) -> Result<(), String> {
    let call = draw(random);
    let mut given = call
        .given
        .iter()
        .flat_map(|start| start.to_be_bytes())
        .collect::<Vec<u8>>();
    let mut result = vec![BLANK; RESULT];
    match random.within(1, 3) {
        1 => given.push(0),
        2 => result.truncate(random.index(RESULT)),
        _ => {
            given.push(0);
            result.pop();
        }
    }
    let (mut out, mut moved) = (vec![BLANK; 40], vec![BLANK; 100]);
    let number = library::mend(&call.file, &given, &mut out, &mut moved, &mut result);
    let kept = is_blank(&out) && is_blank(&moved) && is_blank(&result);
    if number == SHUT && kept {
        return Ok(());
    }
    Err(format!(
        "door_mend on file {:02X?} is not shut: {number}",
        call.file
    ))
}

type Door = fn(&[u8], &[u8], &mut [u8], &mut [u8], &mut [u8]) -> u8;

/// Doors that go wrong after the right call. The comparison must find each.
const WRONG: [(&str, Door); 5] = [
    (
        "the low byte of a start first",
        |file, given, out, moved, result| {
            let number = library::mend(file, given, out, moved, result);
            if number == 0 && out.len() >= 2 {
                out.swap(0, 1);
            }
            number
        },
    ),
    ("a move left out", |file, given, out, moved, result| {
        let before = moved.to_vec();
        let number = library::mend(file, given, out, moved, result);
        if number == 0 && result[10] > 0 {
            let last = 6 * (usize::from(result[10]) - 1);
            moved[last..last + 6].copy_from_slice(&before[last..last + 6]);
        }
        number
    }),
    (
        "a place written after the last move",
        |file, given, out, moved, result| {
            let number = library::mend(file, given, out, moved, result);
            if let (0, Some(next)) = (number, moved.get_mut(6 * usize::from(result[10]))) {
                *next ^= 1;
            }
            number
        },
    ),
    (
        "starts written when a job is late",
        |file, given, out, moved, result| {
            let number = library::mend(file, given, out, moved, result);
            if let (17, Some(last)) = (number, out.last_mut()) {
                *last ^= 1;
            }
            number
        },
    ),
    (
        "another job called late",
        |file, given, out, moved, result| {
            let number = library::mend(file, given, out, moved, result);
            if number == 17 {
                result[0] ^= 1;
            }
            number
        },
    ),
];
