//! Files of the third kind (rules 80 to 83): tables whose devices have several sleep levels. What the first
//! kind calls the power of sleep is not told here: each device has a level count and the powers of its
//! levels.

use crate::cases::damage;
use crate::cases::faults;
use crate::cases::random::Random;
use crate::cases::tables::{DeviceRecord, Tables};
use crate::cases::valid;
use crate::oracle::request::read;

pub const MARK: [u8; 2] = [0xFF, 3];

/// What stands before the powers in a record.
const FRONT: usize = 6;

/// A count and powers, which in a faulty record need not go together.
#[derive(Clone, Debug, PartialEq, Eq)]
pub struct Levels {
    pub count: u8,
    pub powers: Vec<u16>,
}

impl Levels {
    pub fn of(powers: &[u16]) -> Levels {
        Levels {
            count: powers.len() as u8,
            powers: powers.to_vec(),
        }
    }
}

#[derive(Clone, Debug)]
pub struct Third {
    pub tables: Tables,
    pub levels: Vec<Levels>,
}

impl Third {
    /// One level each: the figures of a file of the first kind.
    pub fn single(tables: Tables) -> Third {
        let levels = tables.devices.iter();
        Third {
            levels: levels
                .map(|device| Levels::of(&[device.sleeping]))
                .collect(),
            tables,
        }
    }

    /// T, Pw, P0, the level count and the powers.
    pub fn records(&self) -> Vec<Vec<u8>> {
        let record = |(device, levels): (&DeviceRecord, &Levels)| {
            let mut record = vec![device.transition];
            record.extend(device.working.to_be_bytes());
            record.extend(device.moving.to_be_bytes());
            record.push(levels.count);
            record.extend(levels.powers.iter().flat_map(|power| power.to_be_bytes()));
            record
        };
        let devices = self.tables.devices.iter();
        devices.zip(&self.levels).map(record).collect()
    }

    pub fn bytes(&self) -> Vec<u8> {
        self.tables.marked(&MARK, &self.records())
    }

    /// Where a device's record begins.
    fn place(&self, device: usize) -> usize {
        let before = &self.records()[..device];
        MARK.len() + 3 + before.concat().len()
    }
}

/// Tables whose devices have one to four levels. Most have small powers and short moves, so that gaps
/// have room for the deep levels, and several of them cost the same.
pub fn deepened(random: &mut Random, tables: Tables) -> Third {
    let mut third = Third::single(tables);
    for (device, levels) in third.tables.devices.iter_mut().zip(&mut third.levels) {
        let count = random.pick(&[1, 2, 2, 3, 3, 4, 4]);
        let mut power = random.u16(0, 2);
        if random.one_in(6) {
            // As it was drawn, as far as there is room below its sleep.
            power = device.sleeping - device.sleeping.min(random.pick(&[count - 1, 60_000]));
            let below = (device.sleeping - power).min(count - 1);
            let powers: Vec<u16> = (0..=below).map(|step| device.sleeping - step).collect();
            *levels = Levels::of(&powers);
            continue;
        }
        let mut powers = vec![power];
        while powers.len() < usize::from(count) {
            power += random.pick(&[1, 1, 2, 2, 3, 4, 6]);
            powers.insert(0, power);
        }
        device.transition = random.pick(&[1, 1, 1, 1, 2, 2, 3, device.transition]);
        device.moving = power + random.pick(&[1, 1, 2, 3, 4, 9]);
        device.working = power + random.pick(&[1, 2, 4, 6, 9, 14]);
        *levels = Levels::of(&powers);
    }
    third
}

/// Ones that the reader accepts.
pub fn accepted(random: &mut Random) -> Third {
    loop {
        let tables = match random.within(1, 8) {
            1 => valid::task_list(random),
            2 | 3 => valid::dear_round(random),
            4 => valid::tight_list(random),
            5 | 6 => valid::dear_list(random),
            _ => valid::job_list(random),
        };
        let third = deepened(random, tables);
        if read(&third.bytes()).is_ok() {
            return third;
        }
    }
}

/// With a fault that is put in, or damaged without knowing how; or with another mark.
pub fn damaged(random: &mut Random) -> Vec<u8> {
    let mut third = accepted(random);
    match random.within(1, 12) {
        1 => damage::change(random, third.bytes()),
        2 => damage::cut_short(random, third.bytes()),
        3 => damage::add(random, third.bytes()),
        4 => {
            let mut file = third.bytes();
            file[random.index(2)] = random.pick(&[0, 1, 2, 3, 4, 254, 255]);
            file
        }
        5 => {
            put_any(random, &mut third);
            third.bytes()
        }
        6 | 7 => cut_in_a_record(random, third),
        8 => {
            // Two faults of records, in one of them or in two.
            spoil(random, &mut third);
            spoil(random, &mut third);
            third.bytes()
        }
        _ => {
            spoil(random, &mut third);
            third.bytes()
        }
    }
}

/// A fault that the first kind has too.
pub fn put_any(random: &mut Random, third: &mut Third) {
    let number = random.pick(&faults::NUMBERS);
    faults::put(random, &mut third.tables, number);
    let devices = third.tables.devices.len();
    third.levels.resize(devices, Levels::of(&[0]));
}

fn a_device(random: &mut Random, third: &mut Third) -> usize {
    if third.levels.is_empty() {
        let device = valid::device(random);
        third.levels.push(Levels::of(&[device.sleeping]));
        third.tables.devices.push(device);
    }
    random.index(third.levels.len())
}

/// The file ends in the first six bytes of a record, or in its powers.
fn cut_in_a_record(random: &mut Random, mut third: Third) -> Vec<u8> {
    let device = a_device(random, &mut third);
    let (from, powers) = (third.place(device), 2 * third.levels[device].powers.len());
    let length = if random.one_in(2) {
        random.index(FRONT)
    } else {
        FRONT + random.index(powers)
    };
    let mut file = third.bytes();
    file.truncate(from + length);
    file
}

/// A fault of the third kind's record: no transition time, too few or too many levels, which the powers
/// may go with or not, powers that do not fall, or a power of moving or work that is not above them.
pub fn spoil(random: &mut Random, third: &mut Third) {
    let place = a_device(random, third);
    let (device, levels) = (&mut third.tables.devices[place], &mut third.levels[place]);
    let first = levels.powers.first().copied().unwrap_or(0);
    let low = first - first.min(random.u16(0, 1));
    let choice = random.within(1, 7);
    if choice <= 3 {
        levels.count = random.pick(&[0, 5, 5, 6, 255]);
        let listed = random.pick(&[levels.powers.len(), usize::from(levels.count)]);
        levels.powers.resize(listed.min(8), 0);
    }
    match choice {
        // The lower number decides, whatever the count.
        1 | 4 => device.transition = 0,
        2 | 3 => {}
        5 => device.moving = low,
        6 => device.working = low,
        _ => unsort(random, levels),
    }
}

/// A power as high as the one above it, or higher.
fn unsort(random: &mut Random, levels: &mut Levels) {
    let first = levels.powers.first().copied().unwrap_or(0);
    if levels.powers.len() < 2 {
        *levels = Levels::of(&[first, first]);
    }
    let place = 1 + random.index(levels.powers.len() - 1);
    levels.powers[place] = levels.powers[place - 1].saturating_add(random.u16(0, 1));
}

#[cfg(test)]
mod tests {
    use super::*;
    use crate::cases::tables::{device_a, hex};
    use crate::oracle::expect::{search, text, BUDGET};
    use crate::oracle::judge::judge;
    use crate::oracle::listing::uses;
    use crate::oracle::request::{read_as, FileKind};
    use crate::oracle::rows::row_given;

    /// The horizon, the energy and the rows for given starts.
    fn rows(file: &str, starts: &[u32]) -> (u32, u64, Vec<String>) {
        let request = read(&hex(file)).unwrap();
        let row = |(number, device)| {
            let uses = uses(&request, starts, number);
            row_given(request.round, device, &uses, request.horizon)
        };
        let rows = request.devices.iter().enumerate().map(row).collect();
        (request.horizon, judge(&request, starts).unwrap(), rows)
    }

    fn one_row(file: &str) -> (u32, u64, String) {
        let (horizon, energy, rows) = rows(file, &[]);
        (horizon, energy, rows.concat())
    }

    #[test]
    fn j5_to_j7_a_device_alone() {
        let row = |letters: &str| letters.to_string();
        assert_eq!(
            one_row("ff0300050101000a000402000300010000"),
            (5, 17, row("D111U"))
        );
        assert_eq!(
            one_row("ff0300060101000a000402000300010000"),
            (6, 18, row("DD22UU"))
        );
        assert_eq!(
            one_row("ff03000a01010014000a0400090006000300000000"),
            (10, 72, row("DDD3333UUU"))
        );
    }

    #[test]
    fn j9_a_round_and_a_device_that_it_never_uses() {
        let file = "ff0300000201000a0004020003000101000a0004020003000101000800020100";
        let expected = ["UWWDD22U", "22222222"].map(String::from).to_vec();
        assert_eq!(rows(file, &[1]), (8, 46, expected));
    }

    #[test]
    fn j10_and_j19_plans() {
        let printed = |file: &str| text(&search(&hex(file), BUDGET)).replace('\n', " / ");
        assert_eq!(
            printed("ff03000a0201000a0004020003000101000a0004020003000100020000000a00020100030009000103"),
            "energy 86 / vertices 58 / job 0 start 8 margin 0 / job 1 start 7 margin 1 / \
             device 0 DD222UUWWW / device 1 DD222UUWDU / "
        );
        assert_eq!(
            printed("ff030005010100050003010001000100000005000201"),
            "energy 17 / vertices 5 / job 0 start 0 margin 3 / device 0 WWD1U / "
        );
    }

    #[test]
    fn j12_and_j13_refusals() {
        assert_eq!(read(&hex("ff0300050100000a000400")), Err(4));
        assert_eq!(read(&hex("ff0300050101000a000405")), Err(26));
    }

    /// Figure a12.
    #[test]
    fn the_file_is_that_of_the_figure() {
        let device = DeviceRecord {
            working: 10,
            moving: 4,
            ..device_a()
        };
        let third = Third {
            tables: Tables {
                horizon: 5,
                devices: vec![device],
                ..Tables::default()
            },
            levels: vec![Levels::of(&[3, 1])],
        };
        assert_eq!(third.bytes(), hex("ff0300050101000a000402000300010000"));
    }

    /// One level is the first kind's device but for the letter; the old reading refuses every file with
    /// the mark.
    #[test]
    fn one_level_is_the_first_kind_but_for_the_letter() {
        for number in 0..400 {
            let mut random = Random::new(8, number);
            let tables = valid::job_list(&mut random);
            let single = Third::single(tables.clone()).bytes();
            let (mut first, third) = (read(&tables.bytes()).unwrap(), read(&single).unwrap());
            for device in &mut first.devices {
                device.numbered = true;
            }
            assert_eq!(third, first);
            let other = accepted(&mut random).bytes();
            for kind in [FileKind::First, FileKind::Second] {
                assert!(read_as(kind, &single).is_err());
                assert!(read_as(kind, &other).is_err());
            }
        }
    }

    /// A device record by itself, with all that follows it, judged field by field.
    fn fault(rest: &[u8]) -> Option<u8> {
        let pair = |high: u8, low: u8| u16::from_be_bytes([high, low]);
        let [transition, w1, w0, m1, m0, count, powers @ ..] = rest else {
            return Some(1);
        };
        let (working, moving) = (pair(*w1, *w0), pair(*m1, *m0));
        let least = working.min(moving);
        match (transition, count, powers) {
            (0, ..) => Some(4),
            (_, 0 | 5.., _) => Some(26),
            (_, 1, [a, b, ..]) => (pair(*a, *b) >= least).then_some(5),
            (_, 2, [a, b, c, d, ..]) => {
                let (one, two) = (pair(*a, *b), pair(*c, *d));
                (one >= least || two >= one).then_some(5)
            }
            (_, 3, [a, b, c, d, e, f, ..]) => {
                let (one, two, three) = (pair(*a, *b), pair(*c, *d), pair(*e, *f));
                (one >= least || two >= one || three >= two).then_some(5)
            }
            (_, 4, [a, b, c, d, e, f, g, h, ..]) => {
                let (one, two) = (pair(*a, *b), pair(*c, *d));
                let (three, four) = (pair(*e, *f), pair(*g, *h));
                (one >= least || two >= one || three >= two || four >= three).then_some(5)
            }
            _ => Some(1),
        }
    }

    /// The first record at fault, if the file has come so far.
    fn first_fault(file: &[u8]) -> Option<u8> {
        let [0xFF, 3, _, _, count @ 0..=8, rest @ ..] = file else {
            return None;
        };
        let mut rest = rest;
        for _ in 0..*count {
            if let Some(number) = fault(rest) {
                return Some(number);
            }
            rest = &rest[FRONT + 2 * usize::from(rest[5])..];
        }
        None
    }

    /// The reader and the record judged by itself agree on every file, and every fault of a record comes,
    /// in the first six bytes and in the powers.
    #[test]
    fn records_are_refused_by_the_first_of_their_faults() {
        let mut met = std::collections::BTreeMap::new();
        for number in 0..6_000 {
            let file = damaged(&mut Random::new(9, number));
            let refused = read(&file).err();
            if let Some(fault) = first_fault(&file) {
                assert_eq!(refused, Some(fault), "{file:02X?}");
                *met.entry(fault).or_insert(0) += 1;
            } else {
                assert_ne!(refused, Some(26), "{file:02X?}");
            }
        }
        assert_eq!(met.keys().copied().collect::<Vec<u8>>(), [1, 4, 5, 26]);
        assert!(met.values().all(|&count| count > 300), "{met:?}");
    }
}
