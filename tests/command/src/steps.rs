//! step, held to the oracle's run of every device tick by tick, and to its rows.

use crate::floe::{same, Floe, Tried};
use crate::texts::is_text;
use outside::cases::random::Random;
use outside::oracle::listing::uses;
use outside::oracle::request::read;
use outside::oracle::rows::Energies;
use outside::oracle::stepping::{draw, stepped};
use std::fmt::Write;

const SEED: u64 = 91;
const CALLS: u64 = 500;

pub fn test(floe: &Floe) -> Tried {
    let (mut runs, mut met) = (0, [0; 27]);
    for number in 0..CALLS {
        let call = draw(&mut Random::new(SEED, number));
        if is_text(&call.file) || call.file.is_empty() {
            continue;
        }
        let starts: Vec<String> = call.starts.iter().map(u16::to_string).collect();
        let mut words = vec!["step", "-"];
        words.extend(starts.iter().map(String::as_str));
        let answer = floe.answer(&words, &call.file)?;
        runs += 1;
        // The command lends as much as is needed.
        let outcome = stepped(&call.file, &call.starts, &[0; 8]);
        met[usize::from(outcome.number)] += 1;
        let expected = match read(&call.file) {
            Ok(request) if outcome.number == 0 => {
                let starts: Vec<u32> = call.starts.iter().map(|&start| start.into()).collect();
                let mut energies = Energies::of(&request);
                let mut least = |device| {
                    let mut uses = uses(&request, &starts, device);
                    uses.push((request.horizon, request.horizon));
                    energies.least(device, &uses)
                };
                let least: Vec<u64> = (0..request.devices.len()).map(&mut least).collect();
                let spent = &outcome.energies[..request.devices.len()];
                let all: u64 = spent.iter().map(|&spent| u64::from(spent)).sum();
                let mut text = format!("stepped {all}\nleast {}\n", least.iter().sum::<u64>());
                for (device, (spent, least)) in spent.iter().zip(least).enumerate() {
                    let _ = writeln!(text, "device {device} stepped {spent} least {least}");
                }
                Ok(text)
            }
            _ => Err(outcome.number),
        };
        let answer = answer.map(|text| String::from_utf8_lossy(&text).into_owned());
        same(answer.map_err(|(number, _)| number), expected, || {
            format!("call {number}: {:02X?}, starts {starts:?}", call.file)
        })?;
    }
    let missed: Vec<usize> = [0, 14, 24, 25]
        .into_iter()
        .filter(|&number| met[number] < 5)
        .collect();
    match missed.is_empty() {
        true => Ok(runs),
        false => Err(format!("hardly met: {missed:?} of {met:?}")),
    }
}
