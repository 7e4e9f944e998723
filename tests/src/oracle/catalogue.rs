//! Building from part numbers, a second time: catalogues and lists of wanted parts with near
//! misses, and the file or the number that each has to give.

use crate::cases::random::Random;
use crate::cases::valid;
use crate::oracle::request::FileKind;
use crate::oracle::writing::{self, written, Given, Table, Written, MOST};
use std::collections::BTreeMap;

pub const NUMBER: usize = 8;
const PART: usize = 15;
const MOST_PARTS: usize = 64;

/// One call: a catalogue, the wanted parts, and tables without devices.
#[derive(Clone, Debug)]
pub struct Call {
    pub catalogue: Vec<u8>,
    pub wanted: Vec<u8>,
    pub others: Given,
}

/// What a part is known by. The tests try others.
struct Rules {
    is_number: fn(&[u8]) -> bool,
    key: fn(&[u8]) -> Vec<u8>,
    most: usize,
}

const RULES: Rules = Rules {
    is_number,
    key: <[u8]>::to_vec,
    most: MOST_PARTS,
};

/// Digits and capital letters, at least one, and then spaces only.
fn is_number(number: &[u8]) -> bool {
    let spaces = number.iter().rev().take_while(|&&byte| byte == b' ');
    let text = &number[..NUMBER - spaces.count()];
    let known = |byte: &u8| byte.is_ascii_digit() || byte.is_ascii_uppercase();
    !text.is_empty() && text.iter().all(known)
}

pub fn built(call: &Call) -> Written {
    built_by(&RULES, call)
}

fn built_by(rules: &Rules, call: &Call) -> Written {
    let parts: Vec<&[u8]> = call.catalogue.chunks(PART).collect();
    let is_part = |part: &&[u8]| part.len() == PART && (rules.is_number)(&part[..NUMBER]);
    if parts.len() > rules.most || !parts.iter().all(is_part) {
        return Err(21);
    }
    let entry = |part: &&[u8]| ((rules.key)(&part[..NUMBER]), part[NUMBER..].to_vec());
    let records: BTreeMap<Vec<u8>, Vec<u8>> = parts.iter().map(entry).collect();
    if records.len() < parts.len() {
        return Err(22);
    }
    let wanted = call.wanted.chunks(NUMBER);
    let found = wanted.map(|number| records.get(&(rules.key)(number)));
    let devices: Vec<&Vec<u8>> = found.collect::<Option<_>>().ok_or(23)?;
    let mut given = call.others.clone();
    given.tables[0] = Table {
        count: devices.len() as u16,
        records: devices.into_iter().take(MOST[0]).cloned().collect(),
    };
    written(&given)
}

/// A catalogue with the devices of drawn tables, which are wanted in their order; then near misses. The
/// parts of a catalogue are devices of the first kind.
pub fn draw(random: &mut Random) -> Call {
    let mut others = writing::draw_of(random, FileKind::First);
    let devices = std::mem::take(&mut others.tables[0]);
    let more = random.pick(&[0, 0, 1, 3, 20, MOST_PARTS]);
    let count = (devices.records.len() + more).min(MOST_PARTS - random.index(2));
    let mut places: Vec<usize> = (0..count).collect();
    for last in (1..count).rev() {
        places.swap(last, random.index(last + 1));
    }
    let mut parts: Vec<Vec<u8>> = places.iter().map(|&place| number(place)).collect();
    let wanted_count = usize::from(devices.count).min(300);
    let mut wanted: Vec<Vec<u8>> = Vec::new();
    for device in 0..wanted_count {
        let place = if device < devices.records.len() || count == 0 {
            device
        } else {
            random.index(count)
        };
        wanted.push(parts.get(place).cloned().unwrap_or_else(|| number(place)));
    }
    for (place, part) in parts.iter_mut().enumerate() {
        let record = match devices.records.get(place) {
            Some(record) => record.clone(),
            None if random.one_in(8) => random.bytes(PART - NUMBER),
            None => device_record(random),
        };
        part.extend(record);
    }
    // Not in the order in which they are wanted.
    parts.sort();
    spoil_parts(random, &mut parts);
    spoil_wanted(random, &mut wanted, &parts);
    let mut call = Call {
        catalogue: parts.concat(),
        wanted: wanted.concat(),
        others,
    };
    if random.one_in(24) {
        cut(random, &mut call.catalogue, PART);
    }
    if random.one_in(24) {
        cut(random, &mut call.wanted, NUMBER);
    }
    call
}

/// The last piece in part: some bytes less, or some more.
fn cut(random: &mut Random, bytes: &mut Vec<u8>, size: usize) {
    let by = random.within(1, size as u64 - 1) as usize;
    if random.one_in(2) && by < bytes.len() {
        bytes.truncate(bytes.len() - by);
    } else {
        bytes.extend(vec![b'7'; by]);
    }
}

fn padded(text: &str) -> Vec<u8> {
    format!("{text:8}").into_bytes()
}

/// Numbers of which each has a neighbour that differs in leading zeros or in its last byte.
fn number(place: usize) -> Vec<u8> {
    let pair = place / 2;
    padded(&match (pair % 3, place % 2) {
        (0, 0) => format!("{pair}"),
        (0, _) => format!("00{pair}"),
        (1, 0) => format!("A{pair:06}X"),
        (1, _) => format!("A{pair:06}Y"),
        (_, 0) => format!("{pair}Z"),
        (_, _) => format!("{pair}Z9"),
    })
}

fn device_record(random: &mut Random) -> Vec<u8> {
    let device = valid::device(random);
    let mut record = vec![device.transition];
    for power in [device.working, device.sleeping, device.moving] {
        record.extend(power.to_be_bytes());
    }
    record
}

/// Number 21 by what a number is made of or by how many there are, 22 by a number that comes again.
fn spoil_parts(random: &mut Random, parts: &mut Vec<Vec<u8>>) {
    if parts.is_empty() {
        return;
    }
    let place = random.index(parts.len());
    match random.within(1, 16) {
        1 => {
            let byte = random.pick(b"az/:@[` \0\xFF\xA0_-");
            parts[place][random.index(NUMBER)] = byte;
        }
        2 => nul_padded(&mut parts[place][..NUMBER]),
        3 => parts[place][..NUMBER].rotate_right(1),
        4 => parts[place][..NUMBER].fill(b' '),
        5 => {
            let other = random.index(parts.len());
            let copied = if random.one_in(2) { PART } else { NUMBER };
            let copy = parts[other][..copied].to_vec();
            parts[place][..copied].copy_from_slice(&copy);
        }
        6 => {
            let length = random.within(63, 66) as usize;
            for place in parts.len()..length {
                parts.push([padded(&format!("N{place}")), device_record(random)].concat());
            }
        }
        _ => {}
    }
    // Two faults at once, of which 21 is the first wherever it stands.
    if random.one_in(24) {
        let last = parts.len() - 1;
        parts[last][0] = b'a';
        let first = parts[0].clone();
        parts.insert(0, first);
    }
}

fn nul_padded(number: &mut [u8]) {
    for byte in number.iter_mut().filter(|byte| **byte == b' ') {
        *byte = 0;
    }
}

/// A wanted number that nearly is one of the catalogue, or one wanted twice.
fn spoil_wanted(random: &mut Random, wanted: &mut Vec<Vec<u8>>, parts: &[Vec<u8>]) {
    if wanted.is_empty() {
        if let (true, Some(part)) = (random.one_in(4), parts.first()) {
            wanted.push(part[..NUMBER].to_vec());
        }
        return;
    }
    let place = random.index(wanted.len());
    let text = String::from_utf8_lossy(&wanted[place])
        .trim_end()
        .to_owned();
    match random.within(1, 20) {
        1 => wanted[place] = padded(text.trim_start_matches('0')),
        2 => wanted[place] = padded(&format!("0{text}")[..NUMBER.min(text.len() + 1)]),
        3 => wanted[place] = wanted[place].to_ascii_lowercase(),
        4 => nul_padded(&mut wanted[place]),
        5 => wanted[place].rotate_right(1),
        6 => wanted[place][NUMBER - 1] = random.pick(b" 0XYZ"),
        7 | 8 => wanted[place] = wanted[random.index(wanted.len())].clone(),
        9 => wanted[place] = padded("NONE"),
        _ => {}
    }
}

#[cfg(test)]
mod tests {
    use super::*;

    const SEED: u64 = 13;
    const CALLS: u64 = 6_000;

    #[test]
    fn every_number_is_met() {
        let mut met = [0; 24];
        for number in 0..CALLS {
            match built(&draw(&mut Random::new(SEED, number))) {
                Ok(_) => met[0] += 1,
                Err(number) => met[usize::from(number)] += 1,
            }
        }
        for number in [0, 3, 4, 5, 6, 7, 8, 9, 10, 11, 12, 13, 21, 22, 23] {
            assert!(met[number] > 20, "{met:?}");
        }
    }

    fn is_found(wrong: impl Fn(&Call) -> Written) -> bool {
        let differs = |number| {
            let call = draw(&mut Random::new(SEED, number));
            built(&call) != wrong(&call)
        };
        (0..CALLS).any(differs)
    }

    fn by(rules: Rules) -> impl Fn(&Call) -> Written {
        move |call: &Call| built_by(&rules, call)
    }

    #[test]
    fn a_wrong_look_up_is_found() {
        let seven = |number: &[u8]| number[..number.len().min(7)].to_vec();
        assert!(is_found(by(Rules {
            key: seven,
            ..RULES
        })));
        let without_zeros = |number: &[u8]| {
            let zeros = number.iter().take_while(|&&byte| byte == b'0').count();
            number[zeros..].trim_ascii_end().to_vec()
        };
        assert!(is_found(by(Rules {
            key: without_zeros,
            ..RULES
        })));
        let without_case = |number: &[u8]| number.to_ascii_uppercase();
        assert!(is_found(by(Rules {
            key: without_case,
            ..RULES
        })));
        let lower = |number: &[u8]| is_number(&number.to_ascii_uppercase());
        assert!(is_found(by(Rules {
            is_number: lower,
            ..RULES
        })));
        let nul = |number: &[u8]| {
            let spaced = |&byte: &u8| if byte == 0 { b' ' } else { byte };
            is_number(&number.iter().map(spaced).collect::<Vec<u8>>())
        };
        assert!(is_found(by(Rules {
            is_number: nul,
            ..RULES
        })));
        let inner = |number: &[u8]| {
            number[0] != b' '
                && number
                    .iter()
                    .all(|&byte| byte == b' ' || is_number(&[byte; 8]))
        };
        assert!(is_found(by(Rules {
            is_number: inner,
            ..RULES
        })));
        let empty = |number: &[u8]| number == b"        " || is_number(number);
        assert!(is_found(by(Rules {
            is_number: empty,
            ..RULES
        })));
        assert!(is_found(by(Rules { most: 65, ..RULES })));
        assert!(is_found(by(Rules { most: 63, ..RULES })));
    }
    #[test]
    fn another_order_of_the_refusals_is_found() {
        let repeats = |call: &Call| {
            let mut numbers: Vec<&[u8]> = call.catalogue.chunks_exact(PART).collect();
            numbers.iter_mut().for_each(|part| *part = &part[..NUMBER]);
            numbers.sort();
            numbers.windows(2).any(|two| two[0] == two[1])
        };
        let repeated_first = |call: &Call| match built(call) {
            Err(21) if repeats(call) => Err(22),
            built => built,
        };
        assert!(is_found(repeated_first));
        let file_first = |call: &Call| match built(call) {
            Err(23) => written(&call.others).and(Err(23)),
            built => built,
        };
        assert!(is_found(file_first));
    }
}
