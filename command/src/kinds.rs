//! The kinds of request and what their records hold, field by field. This is the one place that a
//! new kind has to be added to: the text form, the places of a file and the picture go by it.

/// A number of a record: its name in text and messages, and how many bytes it has.
#[derive(Debug)]
pub struct Field {
    pub name: &'static str,
    pub bytes: usize,
}

const fn field(name: &'static str, bytes: usize) -> Field {
    Field { name, bytes }
}

#[derive(Debug)]
pub struct Kind {
    pub number: u8,
    /// What a file of this kind begins with, before the horizon.
    pub marker: &'static [u8],
    /// The fields that every device has.
    device: &'static [Field],
    /// That after these come the powers of levels, as many as the last of them says.
    pub has_levels: bool,
    /// The fields of a device that are times, with what they are called in full.
    times: &'static [(&'static str, usize)],
    /// Each letter of a row, with the field of the device that says its power; those of sleep after
    /// the others, the shallowest first.
    letters: &'static [(u8, usize)],
    /// The fields that say how long going down and coming up take, by one level.
    moves: [(u8, usize); 2],
    /// What the letters of sleep are, in the legend of a picture.
    pub asleep: &'static str,
}

/// How many levels a device can have. Of one that says more, so many powers are kept: it is refused.
pub const MOST_LEVELS: usize = 4;

const POWERS: [&str; MOST_LEVELS] = ["P1", "P2", "P3", "P4"];

pub static FIRST: Kind = Kind {
    number: 1,
    marker: &[],
    device: &[
        field("T", 1),
        field("Pw", 2),
        field("Ps", 2),
        field("P0", 2),
    ],
    has_levels: false,
    times: &[("transition time", 0)],
    letters: &[(b'U', 3), (b'D', 3), (b'W', 1), (b'S', 2)],
    moves: [(b'D', 0), (b'U', 0)],
    asleep: "S: asleep",
};

/// Waking and shutting down take times and powers of their own.
pub static SECOND: Kind = Kind {
    number: 2,
    marker: &[0xFF, 2],
    device: &[
        field("wake", 1),
        field("shut", 1),
        field("Pw", 2),
        field("Ps", 2),
        field("Pwake", 2),
        field("Pshut", 2),
    ],
    has_levels: false,
    times: &[("wake time", 0), ("shut time", 1)],
    letters: &[(b'U', 4), (b'D', 5), (b'W', 2), (b'S', 3)],
    moves: [(b'D', 1), (b'U', 0)],
    asleep: "S: asleep",
};

/// One to four levels of sleep, each with its power.
pub static THIRD: Kind = Kind {
    number: 3,
    marker: &[0xFF, 3],
    device: &[
        field("T", 1),
        field("Pw", 2),
        field("P0", 2),
        field("levels", 1),
    ],
    has_levels: true,
    times: &[("transition time", 0)],
    letters: &[
        (b'U', 2),
        (b'D', 2),
        (b'W', 1),
        (b'1', 4),
        (b'2', 5),
        (b'3', 6),
        (b'4', 7),
    ],
    moves: [(b'D', 0), (b'U', 0)],
    asleep: "1 to 4: asleep at that level",
};

pub static KINDS: [&Kind; 3] = [&FIRST, &SECOND, &THIRD];

/// Tasks and jobs are the same in every kind; their last field is a device set.
pub static TASK: [Field; 3] = [
    field("period", 2),
    field("running time", 2),
    field("devices", 1),
];
pub static JOB: [Field; 4] = [
    field("release", 2),
    field("deadline", 2),
    field("running time", 2),
    field("devices", 1),
];

impl Kind {
    pub fn by_number(number: u32) -> Option<&'static Kind> {
        KINDS
            .into_iter()
            .find(|kind| u32::from(kind.number) == number)
    }

    /// The kind of a file: that whose marker it begins with, the longest first.
    pub fn of_file(file: &[u8]) -> &'static Kind {
        KINDS
            .into_iter()
            .filter(|kind| file.starts_with(kind.marker))
            .max_by_key(|kind| kind.marker.len())
            .unwrap_or(&FIRST)
    }

    /// The fields that every device line has.
    pub fn device_fields(&self) -> &'static [Field] {
        self.device
    }

    /// The fields that follow those that every device has in a line of so many numbers, which says that
    /// it has so many levels: a power for each. Of more levels than can be, any powers will do.
    pub fn further_fields(&self, levels: usize, numbers: usize) -> Vec<Field> {
        let powers = if levels > MOST_LEVELS {
            numbers.saturating_sub(self.device.len())
        } else {
            levels
        };
        let name = |level: usize| POWERS.get(level).copied().unwrap_or("a power");
        (0..powers).map(|level| field(name(level), 2)).collect()
    }

    /// The record of a device line, as the library takes it: with the powers of four levels at most.
    pub fn device_record(&self, mut device: Vec<u8>) -> Vec<u8> {
        let levels = self.level_count(&device).min(MOST_LEVELS);
        device.resize(size(self.device) + 2 * levels, 0);
        device
    }

    /// How many levels a device says that it has, besides the one that every device has.
    fn level_count(&self, device: &[u8]) -> usize {
        let last = self.device.len() - 1;
        let count = value(self.device, device, last) as usize;
        if self.has_levels {
            count
        } else {
            0
        }
    }

    /// How many bytes of a file are called for by the device record that these bytes begin with. The
    /// powers of levels are only after its other fields are found to be right.
    pub fn device_size(&self, bytes: &[u8]) -> usize {
        let levels = self.level_count(bytes);
        let has_times = self.times(bytes).iter().all(|(_, ticks)| *ticks > 0);
        if has_times && levels <= MOST_LEVELS {
            size(self.device) + 2 * levels
        } else {
            size(self.device)
        }
    }

    /// The numbers of a device, as its line has them, with their names.
    pub fn figures(&self, device: &[u8]) -> Vec<(&'static str, u32)> {
        let fields = self.device.iter().enumerate();
        let fixed = fields.map(|(place, field)| (field.name, value(self.device, device, place)));
        let powers = device.get(size(self.device)..).unwrap_or(&[]).chunks(2);
        let powers = powers.map(number).take(self.level_count(device));
        fixed.chain(POWERS.into_iter().zip(powers)).collect()
    }

    /// The times of a device, by what they are called in full.
    pub fn times(&self, device: &[u8]) -> Vec<(&'static str, u32)> {
        let times = self.times.iter();
        times
            .map(|&(name, place)| (name, value(self.device, device, place)))
            .collect()
    }

    /// How long going down (D) or coming up (U) by one level takes.
    pub fn ticks_of(&self, device: &[u8], letter: u8) -> Option<u32> {
        let (_, field) = self.moves.iter().find(|(known, _)| *known == letter)?;
        Some(value(self.device, device, *field))
    }

    /// The letters of the levels at which a device can sleep, the shallowest first.
    pub fn levels(&self, device: &[u8]) -> Vec<u8> {
        let letters = self.letters.iter().skip(3).map(|(letter, _)| *letter);
        letters
            .filter(|&letter| self.power(device, letter).is_some())
            .collect()
    }

    /// The power of a device in a tick with this letter.
    pub fn power(&self, device: &[u8], letter: u8) -> Option<u32> {
        self.named_power(device, letter).map(|(_, power)| power)
    }

    /// The same with the name of its field.
    pub fn named_power(&self, device: &[u8], letter: u8) -> Option<(&'static str, u32)> {
        let (_, field) = self.letters.iter().find(|(known, _)| *known == letter)?;
        self.figures(device).into_iter().nth(*field)
    }
}

/// How many bytes a record of these fields has.
pub fn size(fields: &[Field]) -> usize {
    fields.iter().map(|field| field.bytes).sum()
}

/// The number in a field of a record; what is not there counts as 0.
pub fn value(fields: &[Field], record: &[u8], place: usize) -> u32 {
    let from = size(fields.get(..place).unwrap_or(fields));
    let length = fields.get(place).map_or(0, |field| field.bytes);
    let there = record.get(from..).unwrap_or(&[]);
    number(there.get(..length).unwrap_or(there))
}

/// The number in bytes, the high byte first.
fn number(bytes: &[u8]) -> u32 {
    let bytes = bytes.iter();
    bytes.fold(0, |number, &byte| number << 8 | u32::from(byte))
}

/// The largest number that a field holds.
pub fn largest(field: &Field) -> u32 {
    (1 << (8 * field.bytes)) - 1
}

/// The device numbers of a set: bit k stands for device k.
pub fn members(set: u32) -> impl Iterator<Item = usize> {
    (0..8).filter(move |device| set >> device & 1 == 1)
}

#[cfg(test)]
mod tests {
    use super::*;

    #[test]
    fn fields_are_read_by_their_place() {
        let record = [1, 2, 3, 4, 5, 6, 7];
        let values: Vec<u32> = (0..4)
            .map(|place| value(FIRST.device, &record, place))
            .collect();
        assert_eq!(values, [1, 0x0203, 0x0405, 0x0607]);
        assert_eq!(size(FIRST.device), 7);
        assert_eq!((size(&TASK), size(&JOB)), (5, 7));
        assert_eq!(largest(&FIRST.device[0]), 255);
        assert_eq!(largest(&FIRST.device[1]), 65_535);
    }

    #[test]
    fn a_letter_has_the_power_of_its_field() {
        let record = [1, 0, 5, 0, 1, 0, 3];
        let powers: Vec<Option<u32>> = b"WDSUX"
            .iter()
            .map(|&letter| FIRST.power(&record, letter))
            .collect();
        assert_eq!(powers, [Some(5), Some(3), Some(1), Some(3), None]);
    }

    /// A device of 1 and 3 ticks, and of the powers 9, 1, 4 and 2, in the order of its record.
    #[test]
    fn waking_and_shutting_down_are_told_apart() {
        let record = [1, 3, 0, 9, 0, 1, 0, 4, 0, 2];
        assert_eq!(SECOND.device_size(&record), record.len());
        assert_eq!(SECOND.times(&record), [("wake time", 1), ("shut time", 3)]);
        let named = |letter| SECOND.named_power(&record, letter);
        assert_eq!(named(b'U'), Some(("Pwake", 4)));
        assert_eq!(named(b'D'), Some(("Pshut", 2)));
        assert_eq!(
            (named(b'W'), named(b'S')),
            (Some(("Pw", 9)), Some(("Ps", 1)))
        );
    }

    /// A sensor of T 1, Pw 10, P0 4 and two levels of the powers 3 and 1.
    const SENSOR: [u8; 10] = [1, 0, 10, 0, 4, 2, 0, 3, 0, 1];

    #[test]
    fn levels_have_their_powers() {
        let figures = [
            ("T", 1),
            ("Pw", 10),
            ("P0", 4),
            ("levels", 2),
            ("P1", 3),
            ("P2", 1),
        ];
        assert_eq!(THIRD.figures(&SENSOR), figures);
        assert_eq!(THIRD.levels(&SENSOR), b"12");
        assert_eq!(FIRST.levels(&SENSOR[..7]), b"S");
        let powers: Vec<Option<u32>> = b"WDU123"
            .iter()
            .map(|&letter| THIRD.power(&SENSOR, letter))
            .collect();
        let expected = [Some(10), Some(4), Some(4), Some(3), Some(1), None];
        assert_eq!(powers, expected);
    }

    /// What the count says is called for only if it can be, after a time that is one.
    #[test]
    fn a_record_with_levels_is_as_long_as_they_are_many() {
        assert_eq!(THIRD.device_size(&SENSOR), 10);
        assert_eq!(THIRD.device_size(&SENSOR[..5]), 6);
        for (place, byte, bytes) in [(0, 0, 6), (5, 0, 6), (5, 4, 14), (5, 5, 6), (5, 255, 6)] {
            let mut record = SENSOR;
            record[place] = byte;
            assert_eq!(THIRD.device_size(&record), bytes, "{place} {byte}");
        }
    }

    #[test]
    fn a_line_has_as_many_powers_as_levels() {
        let count = |levels, words| {
            let fields = THIRD.further_fields(levels, words);
            fields.len()
        };
        assert_eq!([count(0, 9), count(2, 4), count(4, 4)], [0, 2, 4]);
        assert_eq!([count(5, 4), count(5, 7), count(255, 4)], [0, 3, 0]);
        let record = |levels| THIRD.device_record(vec![1, 0, 10, 0, 4, levels]);
        assert_eq!(
            [0, 4, 5, 255].map(|count| record(count).len()),
            [6, 14, 14, 14]
        );
    }

    #[test]
    fn a_file_has_the_kind_of_its_mark() {
        for (file, number) in [
            (&[0xFF, 2][..], 2),
            (&[0xFF, 2, 0, 5], 2),
            (&[0xFF, 3, 0, 5], 3),
            (&[0xFF], 1),
            (&[0xFF, 4, 0, 5], 1),
            (&[2, 0xFF], 1),
            (&[], 1),
        ] {
            assert_eq!(Kind::of_file(file).number, number, "{file:?}");
        }
    }
}
