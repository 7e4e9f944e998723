//! The part for which an order is refused, and the line for which a sheet is, held to the oracle by
//! trial: it is the first with which the oracle gives the number, tried one after the other.

use crate::expected::SHUT;
use crate::library;
use crate::tails::{is_blank, longer, BLANK};
use linked::COUNTED;
use outside::cases::random::Random;
use outside::oracle::catalogue::{self, built, Call, NUMBER};
use outside::oracle::sheets::{draw_text, import_devices, import_jobs, Made, Rows};
use std::collections::BTreeMap;

const SEED: u64 = 41;
const ORDERS: u64 = 16_000;
const SHEETS: u64 = 13_000;
const PART: usize = 15;

type Met = BTreeMap<u8, u64>;

pub fn test_orders() -> Result<Met, String> {
    let met = orders(library::order_fault)?;
    let first_of_two = |catalogue: &[u8], wanted: &[u8], result: &mut [u8]| {
        let number = library::order_fault(catalogue, wanted, result);
        if number == 22 && result.len() >= COUNTED {
            result[COUNTED - 1] -= 1;
        }
        number
    };
    match orders(first_of_two) {
        Ok(_) => Err("not found: a part before the one at fault".to_string()),
        Err(_) => Ok(met),
    }
}

fn orders(call: impl Fn(&[u8], &[u8], &mut [u8]) -> u8) -> Result<Met, String> {
    let mut met = Met::new();
    for number in 0..ORDERS {
        let order = catalogue::draw(&mut Random::new(SEED, number));
        let Call {
            catalogue, wanted, ..
        } = &order;
        let mut result = buffer(number);
        let said = call(catalogue, wanted, &mut result);
        hold(part_at_fault(&order), said, &result, &mut met).map_err(|why| {
            format!("door_order_fault on {catalogue:02X?} {wanted:02X?}\n  {why}")
        })?;
    }
    Ok(met)
}

pub fn test_devices() -> Result<Met, String> {
    sheets(Rows::Devices, import_devices, library::devices_fault)
}

pub fn test_jobs() -> Result<Met, String> {
    sheets(Rows::Jobs, import_jobs, library::jobs_fault)
}

fn sheets(
    rows: Rows,
    import: fn(&[u8]) -> Made,
    call: fn(&[u8], &mut [u8]) -> u8,
) -> Result<Met, String> {
    let mut met = Met::new();
    for number in 0..SHEETS {
        let text = draw_text(&mut Random::new(SEED, number), rows);
        let mut result = buffer(number);
        let said = call(&text, &mut result);
        hold(line_at_fault(&text, import), said, &result, &mut met)
            .map_err(|why| format!("{:?}\n  {why}", String::from_utf8_lossy(&text)))?;
    }
    Ok(met)
}

/// A result buffer that is shorter than what is told, as long or longer.
fn buffer(number: u64) -> Vec<u8> {
    let more = number as usize / 8;
    let length = match number % 8 {
        0 => more % COUNTED,
        1 => COUNTED + more % 5,
        _ => COUNTED,
    };
    vec![BLANK; length]
}

/// A door without room is shut; else the number is returned, and the place stands in eight bytes.
fn hold(
    (number, place): (u8, usize),
    said: u8,
    result: &[u8],
    met: &mut Met,
) -> Result<(), String> {
    *met.entry(said).or_default() += 1;
    let is_right = match result.len().checked_sub(COUNTED) {
        None => said == SHUT && is_blank(result),
        Some(more) => said == number && result == longer(&(place as u64).to_be_bytes(), more),
    };
    match is_right {
        true => Ok(()),
        false => Err(format!(
            "expected {number} at {place}, got {said} {result:02X?}"
        )),
    }
}

/// The first part, or the first wanted one, with which the number comes.
fn part_at_fault(order: &Call) -> (u8, usize) {
    let number = match built(order) {
        Err(number @ 21..=23) => number,
        _ => return (0, 0),
    };
    let comes = |catalogue: &[u8], wanted: &[u8]| {
        let trial = Call {
            catalogue: catalogue.to_vec(),
            wanted: wanted.to_vec(),
            others: order.others.clone(),
        };
        built(&trial).err() == Some(number)
    };
    let front = |bytes: &[u8], size: usize, last: usize| {
        let end = (size * (last + 1)).min(bytes.len());
        bytes[..end].to_vec()
    };
    let place = match number {
        23 => (0..).find(|&last| comes(&order.catalogue, &front(&order.wanted, NUMBER, last))),
        _ => (0..).find(|&last| comes(&front(&order.catalogue, PART, last), &[])),
    };
    (number, place.unwrap_or(usize::MAX))
}

/// The first line with which the number comes.
fn line_at_fault(text: &[u8], import: fn(&[u8]) -> Made) -> (u8, usize) {
    let Err(number) = import(text) else {
        return (0, 0);
    };
    let ends = text
        .windows(2)
        .zip(2..)
        .filter(|(pair, _)| *pair == b"\r\n");
    let ends = ends.map(|(_, end)| end).chain([text.len()]);
    let line = ends.zip(0..).find_map(|(end, line)| {
        let comes = import(&text[..end]).err() == Some(number);
        comes.then_some(line)
    });
    (number, line.unwrap_or(usize::MAX))
}
