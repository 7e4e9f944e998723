//! Files of the second kind: tables whose devices shut down with a time and a power of their own. What
//! the first kind calls a transition is here waking.

use crate::cases::damage;
use crate::cases::faults;
use crate::cases::random::Random;
use crate::cases::tables::Tables;
use crate::cases::valid;
use crate::oracle::request::read;

pub const MARK: [u8; 2] = [0xFF, 2];

/// The time and the power of shutting down.
pub type Shut = (u8, u16);

#[derive(Clone, Debug)]
pub struct Second {
    pub tables: Tables,
    pub shuts: Vec<Shut>,
}

impl Second {
    /// Shutting down like waking: the figures of a file of the first kind.
    pub fn alike(tables: Tables) -> Second {
        let shuts = tables.devices.iter();
        let shuts = shuts.map(|device| (device.transition, device.moving));
        Second {
            shuts: shuts.collect(),
            tables,
        }
    }

    /// Records of ten bytes: waking and shutting, Pw, Ps, waking and shutting.
    pub fn records(&self) -> Vec<Vec<u8>> {
        let record = |(device, &(time, power)): (&crate::cases::tables::DeviceRecord, &Shut)| {
            let powers = [device.working, device.sleeping, device.moving, power];
            let powers = powers.map(u16::to_be_bytes).concat();
            [&[device.transition, time], &powers[..]].concat()
        };
        self.tables
            .devices
            .iter()
            .zip(&self.shuts)
            .map(record)
            .collect()
    }

    pub fn bytes(&self) -> Vec<u8> {
        self.tables.marked(&MARK, &self.records())
    }
}

/// Tables whose devices differ in how they shut down: in its time, its power, both, or not at all.
pub fn apart(random: &mut Random, tables: Tables) -> Second {
    let mut second = Second::alike(tables);
    for (shut, device) in second.shuts.iter_mut().zip(&second.tables.devices) {
        if random.one_in(8) {
            continue;
        }
        shut.0 = random.pick(&[1, 1, 2, 2, 3, 4, 7, 255]);
        if !random.one_in(4) {
            let least = device.sleeping.saturating_add(1);
            let most = least.saturating_add(random.pick(&[3, 9, 9, 60_000]));
            shut.1 = random.u16(least, most);
        }
    }
    second
}

/// Ones that the reader accepts.
pub fn accepted(random: &mut Random) -> Second {
    loop {
        let tables = match random.within(1, 5) {
            1 => valid::task_list(random),
            2 => valid::tight_list(random),
            3 => valid::dear_list(random),
            _ => valid::job_list(random),
        };
        let second = apart(random, tables);
        if read(&second.bytes()).is_ok() {
            return second;
        }
    }
}

/// With a fault that is put in, or damaged without knowing how; or with another mark.
pub fn damaged(random: &mut Random) -> Vec<u8> {
    let mut second = accepted(random);
    match random.within(1, 8) {
        1 => damage::change(random, second.bytes()),
        2 => damage::cut_short(random, second.bytes()),
        3 => damage::add(random, second.bytes()),
        4 => {
            let mut file = second.bytes();
            file[random.index(2)] = random.pick(&[0, 1, 2, 3, 4, 254, 255]);
            file
        }
        5 => {
            put_any(random, &mut second);
            second.bytes()
        }
        _ => {
            spoil(random, &mut second);
            second.bytes()
        }
    }
}

/// A fault that the first kind has too.
pub fn put_any(random: &mut Random, second: &mut Second) {
    let number = random.pick(&faults::NUMBERS);
    faults::put(random, &mut second.tables, number);
    let devices = second.tables.devices.len();
    second.shuts.resize(devices, (1, 65_535));
}

/// A time of 0, or a power that is not above that of sleep.
pub fn spoil(random: &mut Random, second: &mut Second) {
    if second.shuts.is_empty() {
        second.tables.devices.push(valid::device(random));
        second.shuts.push((1, 65_535));
    }
    let place = random.index(second.shuts.len());
    let (device, shut) = (&mut second.tables.devices[place], &mut second.shuts[place]);
    let low = device.sleeping.saturating_sub(random.u16(0, 1));
    match random.within(1, 5) {
        1 => shut.0 = 0,
        2 => device.transition = 0,
        3 => shut.1 = low,
        4 => device.moving = low,
        _ => device.working = low,
    }
}

#[cfg(test)]
mod tests {
    use super::*;
    use crate::cases::tables::{device_a, hex, job};
    use crate::oracle::expect::{search, text, BUDGET};
    use crate::oracle::request::{read_as, FileKind};

    fn printed(file: &str) -> String {
        text(&search(&hex(file), BUDGET)).replace('\n', " / ")
    }

    #[test]
    fn the_file_is_that_of_the_figure() {
        let mut devices = vec![device_a()];
        devices[0].working = 9;
        devices[0].moving = 4;
        let tables = Tables {
            horizon: 5,
            devices,
            ..Tables::default()
        };
        let second = Second {
            tables,
            shuts: vec![(3, 2)],
        };
        assert_eq!(second.bytes(), hex("ff02000501010300090001000400020000"));
    }

    #[test]
    fn h1_to_h7() {
        let rows = |file| printed(file).split_once("device 0 ").unwrap().1[..].to_string();
        assert_eq!(rows("ff02000801010300090001000400020000"), "DDDSSSSU / ");
        assert_eq!(rows("ff02000301010300090001000400020000"), "WWW / ");
        assert_eq!(rows("ff02000401010300090001000400020000"), "DDDU / ");
        assert_eq!(
            printed("ff0200090101030009000100040002000100020007000201"),
            "energy 47 / vertices 5 / job 0 start 2 margin 3 / device 0 WWWWDDDSU / "
        );
        assert_eq!(
            printed("ff0200050101010005000100030003000100000005000201"),
            "energy 17 / vertices 5 / job 0 start 0 margin 3 / device 0 WWDSU / "
        );
    }

    /// Equal figures in both kinds give one request; the old reading refuses every file with the mark.
    #[test]
    fn both_kinds() {
        for number in 0..400 {
            let mut random = Random::new(8, number);
            let tables = valid::job_list(&mut random);
            let second = Second::alike(tables.clone()).bytes();
            assert_eq!(read(&second), read(&tables.bytes()));
            let other = accepted(&mut random).bytes();
            assert!(read_as(FileKind::First, &second).is_err());
            assert!(read_as(FileKind::First, &other).is_err());
        }
    }

    /// As long as an accepted file can be.
    #[test]
    fn the_longest_has_199_bytes() {
        let tables = Tables {
            horizon: 16,
            devices: vec![device_a(); 8],
            tasks: Vec::new(),
            jobs: (0..16).map(|n| job(n, n + 1, 1, 1 << (n % 8))).collect(),
        };
        let file = Second::alike(tables).bytes();
        assert_eq!(file.len(), 199);
        assert!(read(&file).is_ok());
    }

    #[test]
    fn damage_meets_every_number_of_a_record() {
        let mut met = [0; 27];
        for number in 0..2_000 {
            let file = damaged(&mut Random::new(9, number));
            met[usize::from(read(&file).map_or_else(|number| number, |_| 0))] += 1;
        }
        assert!([0, 1, 2, 3, 4, 5].iter().all(|&n| met[n] > 20), "{met:?}");
    }
}
