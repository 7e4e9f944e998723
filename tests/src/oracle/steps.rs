//! One step of one device from outside: random devices, records and events, and for each call the
//! whole outcome that rules 131 to 134 ask for; and a whole round on such steps.
//!
//! Ticks pass one by one here, each at its own power.

use crate::cases::random::Random;
use crate::oracle::request::read;
use crate::oracle::stepping::{stepped, Call};
use std::collections::BTreeMap;

pub const SHUT: u8 = 255;

/// What happens to a device.
#[derive(Clone, Copy, Debug)]
pub enum Event {
    /// Whether this job uses it, whether the next does, and the pause between them.
    Start(u8, u8, u16),
    End(u8, u8, u16),
    Pass(u16),
}

/// A step: the bytes of a device, those of its record, and the event. It writes into the record.
pub trait Stepping: Fn(&[u8], &mut [u8], Event) -> u8 {}
impl<F: Fn(&[u8], &mut [u8], Event) -> u8> Stepping for F {}

const WORKS: u8 = 0;
const SLEEPS: u8 = 1;
const FALLS: u8 = 2;
const RISES: u8 = 3;

fn pair(bytes: &[u8], at: usize) -> u64 {
    u64::from(bytes[at]) * 256 + u64::from(bytes[at + 1])
}

/// What refuses the bytes; 0 for nothing.
fn refusal(device: &[u8], record: &[u8]) -> u8 {
    if device.len() != 7 || record.len() != 6 || record[0] > RISES {
        return SHUT;
    }
    if device[0] == 0 {
        return 4;
    }
    let (working, sleeping, moving) = (pair(device, 1), pair(device, 3), pair(device, 5));
    if sleeping < moving && moving < working {
        return 0;
    }
    25
}

/// A device that stays begins a move, which takes so many ticks, or does not.
fn begun(what: u8, to: Option<u8>, time: u8) -> (u8, u8) {
    to.map_or((what, 0), |to| (to, time))
}

fn at_start(what: u8, uses: bool, next: bool, short: bool, time: u8) -> (u8, u8) {
    let to = match what {
        WORKS if uses || (next && short) => None,
        WORKS => Some(FALLS),
        _ if next && short => Some(RISES),
        _ => None,
    };
    begun(what, to, time)
}

fn at_end(what: u8, uses: bool, next: bool, short: bool, time: u8) -> (u8, u8) {
    let to = match what {
        WORKS if uses && !next && !short => Some(FALLS),
        SLEEPS if next => Some(RISES),
        _ => None,
    };
    begun(what, to, time)
}

/// The number, and the record after the step.
pub fn step(device: &[u8], record: &[u8], event: Event) -> (u8, Vec<u8>) {
    let number = refusal(device, record);
    if number != 0 {
        return (number, record.to_vec());
    }
    let time = device[0];
    let (mut what, mut left) = (record[0], record[1]);
    if what < FALLS {
        left = 0;
    }
    let mut energy = pair(record, 2) * 65_536 + pair(record, 4);
    match event {
        Event::Start(uses, next, pause) if what < FALLS => {
            let short = pause < time.into();
            (what, left) = at_start(what, uses != 0, next != 0, short, time);
        }
        Event::End(uses, next, pause) if what < FALLS => {
            let short = pause < time.into();
            (what, left) = at_end(what, uses != 0, next != 0, short, time);
        }
        Event::Pass(ticks) => {
            for _ in 0..ticks {
                if what >= FALLS && left == 0 {
                    what = if what == FALLS { SLEEPS } else { WORKS };
                }
                energy += match what {
                    WORKS => pair(device, 1),
                    SLEEPS => pair(device, 3),
                    _ => pair(device, 5),
                };
                if what >= FALLS {
                    left -= 1;
                    if left == 0 {
                        what = if what == FALLS { SLEEPS } else { WORKS };
                    }
                }
            }
        }
        _ => (),
    }
    match u32::try_from(energy) {
        Ok(energy) => (0, [&[what, left][..], &energy.to_be_bytes()].concat()),
        Err(_) => (15, record.to_vec()),
    }
}

fn device(random: &mut Random) -> Vec<u8> {
    let top = random.pick(&[6, 20, 65_535]);
    let sleeping = random.u16(0, top - 2);
    let moving = random.u16(sleeping + 1, top - 1);
    let working = random.u16(moving + 1, top);
    let time = random.u8(1, 6);
    let mut figures = [working, sleeping, moving];
    if random.one_in(12) {
        figures.swap(random.index(3), random.index(3));
    }
    let time = if random.one_in(20) { 0 } else { time };
    let powers = figures.iter().flat_map(|power| power.to_be_bytes());
    let mut bytes: Vec<u8> = [time].into_iter().chain(powers).collect();
    if random.one_in(24) {
        bytes.push(0);
    } else if random.one_in(24) {
        bytes.pop();
    }
    bytes
}

fn record(random: &mut Random, time: u8) -> Vec<u8> {
    let what = if random.one_in(24) {
        random.u8(4, 255)
    } else {
        random.u8(WORKS, RISES)
    };
    let left = if random.one_in(8) {
        random.u8(0, 255)
    } else {
        random.u8(0, time)
    };
    let energy = if random.one_in(3) {
        u32::MAX - u32::from(random.u16(0, 300))
    } else {
        u32::from(random.u16(0, u16::MAX)) * 3
    };
    let mut bytes = [&[what, left][..], &energy.to_be_bytes()].concat();
    if random.one_in(24) {
        bytes.push(0);
    } else if random.one_in(24) {
        bytes.pop();
    }
    bytes
}

/// A yes is any byte but 0.
fn flag(random: &mut Random) -> u8 {
    random.pick(&[0, 0, 1, 1, 2, 255])
}

fn event(random: &mut Random, time: u8, which: u64) -> Event {
    let near = u16::from(time) + random.u16(0, 4);
    let ticks = random.pick(&[0, 1, near.saturating_sub(2), 300]);
    match which {
        0 => Event::Start(flag(random), flag(random), near.saturating_sub(2)),
        1 => Event::End(flag(random), flag(random), near.saturating_sub(2)),
        _ => Event::Pass(ticks),
    }
}

/// Draws steps of one kind, 0 a start, 1 a completion, 2 ticks, and holds each to the rules: how often
/// each number came.
pub fn run(
    seed: u64,
    calls: u64,
    which: u64,
    call: impl Stepping,
) -> Result<BTreeMap<u8, u64>, String> {
    let mut met = BTreeMap::new();
    for number in 0..calls {
        let random = &mut Random::new(seed, number);
        let device = device(random);
        let time = device.first().copied().unwrap_or(1);
        let before = record(random, time);
        let event = event(random, time, which);
        let mut after = before.clone();
        let got = call(&device, &mut after, event);
        let expected = step(&device, &before, event);
        if (got, &after) != (expected.0, &expected.1) {
            return Err(format!(
                "{event:?} of {device:02X?} with {before:02X?}\nexpected {expected:02X?}\ngot      {got} {after:02X?}"
            ));
        }
        *met.entry(got).or_default() += 1;
    }
    Ok(met)
}

/// A drawn round, device by device on such steps: each spends what stepping through it says. Answers
/// whether the round can be stepped.
pub fn round(drawn: &Call, call: &impl Stepping) -> Result<bool, String> {
    let whole = stepped(&drawn.file, &drawn.starts, &drawn.lent);
    if whole.number != 0 {
        return Ok(false);
    }
    let request = read(&drawn.file).expect("a file that is stepped is accepted");
    let mut order: Vec<usize> = (0..drawn.starts.len()).collect();
    order.sort_by_key(|&job| drawn.starts[job]);
    for device in 0..request.devices.len() {
        let bytes = &drawn.file[3 + 7 * device..10 + 7 * device];
        let (mut record, mut now) = ([0; 6], 0);
        let mut events = Vec::new();
        for (place, &job) in order.iter().enumerate() {
            let start = u32::from(drawn.starts[job]);
            let end = start + request.jobs[job].running;
            let next = order.get(place + 1);
            let until = next.map_or(request.horizon, |&job| drawn.starts[job].into());
            let used = |job: usize| u8::from(request.jobs[job].uses(device));
            let (uses, next) = (used(job), next.map_or(0, |&job| used(job)));
            let pause = (until - end) as u16;
            events.push(Event::Pass((start - now) as u16));
            events.push(Event::Start(uses, next, pause));
            events.push(Event::Pass((end - start) as u16));
            events.push(Event::End(uses, next, pause));
            now = end;
        }
        events.push(Event::Pass((request.horizon - now) as u16));
        let refused = events
            .iter()
            .any(|&event| call(bytes, &mut record, event) != 0);
        let spent = (pair(&record, 2) * 65_536 + pair(&record, 4)) as u32;
        if refused || spent != whole.energies[device] {
            return Err(format!(
                "{drawn:02X?}\ndevice {device} spends {} and by its steps {spent}",
                whole.energies[device]
            ));
        }
    }
    Ok(true)
}

#[cfg(test)]
mod tests {
    use super::*;
    use crate::oracle::stepping::draw;

    const SEED: u64 = 131;
    const CALLS: u64 = 4_000;

    fn own(device: &[u8], record: &mut [u8], event: Event) -> u8 {
        let (number, after) = step(device, record, event);
        record.copy_from_slice(&after);
        number
    }

    #[test]
    fn every_number_comes() {
        for (which, numbers) in [
            (0, &[0, 4, 25, SHUT][..]),
            (1, &[0, 4, 25, SHUT]),
            (2, &[0, 4, 15, 25, SHUT]),
        ] {
            let met = run(SEED, CALLS, which, own).unwrap();
            assert_eq!(met.keys().copied().collect::<Vec<u8>>(), numbers);
        }
    }

    #[test]
    fn rounds_come_to_what_stepping_through_says() {
        let rounds = (0..CALLS).map(|number| draw(&mut Random::new(SEED, number)));
        let stepped = rounds.map(|drawn| round(&drawn, &own).unwrap());
        assert!(stepped.filter(|&stepped| stepped).count() as u64 > CALLS / 3);
    }

    #[test]
    fn a_wrong_step_is_found() {
        let short = |device: &[u8], record: &mut [u8], event: Event| match event {
            Event::End(uses, next, pause) => own(device, record, Event::End(uses, next, pause / 2)),
            event => own(device, record, event),
        };
        assert!(run(SEED, CALLS, 1, short).is_err());
        let writes = |device: &[u8], record: &mut [u8], event: Event| {
            let number = own(device, record, event);
            if let (15, Some(first)) = (number, record.first_mut()) {
                *first ^= 1;
            }
            number
        };
        assert!(run(SEED, CALLS, 2, writes).is_err());
    }
}
