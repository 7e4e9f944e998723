//! Requests as text, written by the tests themselves, in many ways that mean the same; and where a
//! file is at fault.

use outside::cases::random::Random;
use outside::cases::second::Second;
use outside::cases::tables::{DeviceRecord, Tables};
use outside::cases::third::{Levels, Third};
use outside::oracle::request::{read, read_as, unmarked, FileKind, Request};

/// What a file says, by its kind.
pub enum Drawn {
    First(Tables),
    Second(Second),
    Third(Third),
}

impl Drawn {
    pub fn kind(&self) -> FileKind {
        match self {
            Drawn::First(_) => FileKind::First,
            Drawn::Second(_) => FileKind::Second,
            Drawn::Third(_) => FileKind::Third,
        }
    }

    pub fn tables(&self) -> &Tables {
        match self {
            Drawn::First(tables) => tables,
            Drawn::Second(second) => &second.tables,
            Drawn::Third(third) => &third.tables,
        }
    }

    pub fn bytes(&self) -> Vec<u8> {
        match self {
            Drawn::First(tables) => tables.bytes(),
            Drawn::Second(second) => second.bytes(),
            Drawn::Third(third) => third.bytes(),
        }
    }

    /// By the reader of the kind: in the first a horizon field FF02 is no mark.
    pub fn read(&self) -> Result<Request, u8> {
        match self {
            Drawn::First(tables) => read_as(FileKind::First, &tables.bytes()),
            _ => read(&self.bytes()),
        }
    }

    /// The numbers of a device line.
    fn numbers(&self, place: usize) -> Vec<u16> {
        let DeviceRecord {
            transition,
            working,
            sleeping,
            moving,
        } = self.tables().devices[place];
        let transition = transition.into();
        match self {
            Drawn::First(_) => vec![transition, working, sleeping, moving],
            Drawn::Second(second) => {
                let (time, power) = second.shuts[place];
                vec![transition, time.into(), working, sleeping, moving, power]
            }
            Drawn::Third(third) => {
                let Levels { count, powers } = &third.levels[place];
                let front = [transition, working, moving, (*count).into()];
                [&front, &powers[..]].concat()
            }
        }
    }
}

/// A text, and the line of each record.
#[derive(Default)]
pub struct Text {
    pub text: String,
    pub horizon: Option<usize>,
    pub devices: Vec<usize>,
    pub tasks: Vec<usize>,
    pub jobs: Vec<usize>,
}

fn set(random: &mut Random, devices: u8) -> String {
    let mut names: Vec<String> = (0..8)
        .filter(|device| devices >> device & 1 == 1)
        .map(|device| device.to_string())
        .collect();
    if random.one_in(4) {
        names.reverse();
    }
    if names.is_empty() {
        "-".to_string()
    } else {
        names.join(",")
    }
}

/// The lines of tables, of which those of one section keep their order.
pub fn write(random: &mut Random, drawn: &Drawn) -> Text {
    let tables = drawn.tables();
    let mut sections: [Vec<Vec<String>>; 4] = Default::default();
    let line = |word: &str, numbers: &[u16]| {
        let numbers = numbers.iter().map(u16::to_string);
        [word.to_string()].into_iter().chain(numbers).collect()
    };
    if tables.horizon != 0 || random.one_in(2) {
        sections[0].push(line("horizon", &[tables.horizon]));
    }
    for place in 0..tables.devices.len() {
        sections[1].push(line("device", &drawn.numbers(place)));
    }
    for task in &tables.tasks {
        let mut words: Vec<String> = line("task", &[task.period, task.running]);
        words.push(set(random, task.devices));
        sections[2].push(words);
    }
    for job in &tables.jobs {
        let mut words: Vec<String> = line("job", &[job.release, job.deadline, job.running]);
        words.push(set(random, job.devices));
        sections[3].push(words);
    }
    let in_order = !random.one_in(3);
    let end = random.pick(&["\n", "\n", "\r\n"]);
    let mut written = Text::default();
    let mut number = 0;
    let mut blank = |text: &mut String, line: &str| {
        text.push_str(line);
        text.push_str(end);
        number += 1;
        number
    };
    if random.one_in(3) {
        blank(&mut written.text, "# horizon 7 is no line");
    }
    match drawn.kind() {
        FileKind::First if random.one_in(4) => drop(blank(&mut written.text, "kind 1")),
        FileKind::First => {}
        FileKind::Second => drop(blank(
            &mut written.text,
            random.pick(&["kind 2", " kind\t02 # 1"]),
        )),
        FileKind::Third => drop(blank(
            &mut written.text,
            random.pick(&["kind 3", "\tkind 003#"]),
        )),
    }
    while let Some(section) = next(random, &sections, in_order) {
        let words = sections[section].remove(0);
        let space = random.pick(&[" ", " ", "  ", "\t", " \t "]);
        let mut line = words.join(space);
        if random.one_in(6) {
            line = format!("{space}{line}{space}");
        }
        if random.one_in(6) {
            line += random.pick(&["#", " # device 0", "  ## ü"]);
        }
        let number = blank(&mut written.text, &line);
        match section {
            0 => written.horizon = Some(number),
            1 => written.devices.push(number),
            2 => written.tasks.push(number),
            _ => written.jobs.push(number),
        }
        if random.one_in(8) {
            blank(&mut written.text, random.pick(&["", "  ", "\t#"]));
        }
    }
    // The last line may lack its end; a text of fewer than three bytes is none.
    if random.one_in(4) && written.text.len() > 4 {
        written.text.truncate(written.text.len() - end.len());
    }
    written
}

fn next(random: &mut Random, sections: &[Vec<Vec<String>>; 4], in_order: bool) -> Option<usize> {
    let left: Vec<usize> = (0..4)
        .filter(|&section| !sections[section].is_empty())
        .collect();
    match left.len() {
        0 => None,
        _ if in_order => left.first().copied(),
        count => Some(left[random.index(count)]),
    }
}

/// Whether a file that is not accepted is taken for text: its first three bytes could be.
pub fn is_text(file: &[u8]) -> bool {
    let is_control = |byte: u8| byte < 32 && ![9, 10, 13].contains(&byte);
    file.len() >= 3 && file[0] != 0xFF && !file.iter().take(3).any(|&byte| is_control(byte))
}

/// Where the shortest beginning of a file ends that is more than cut short.
pub fn end_of_fault(file: &[u8]) -> Option<usize> {
    (0..=file.len()).find(|&length| read(&file[..length]) != Err(1))
}

/// The parts of a file one after the other, as its counts say: the name of each, where it begins and
/// where it ends. The last may end after the file.
pub fn parts(file: &[u8]) -> Vec<(String, usize, usize)> {
    let (kind, rest) = unmarked(file);
    let from = file.len() - rest.len();
    let mut parts = vec![("horizon".to_string(), from, from + 2)];
    let mut at = from + 2;
    for section in ["device", "task", "job"] {
        let records = file.get(at).copied().unwrap_or(0);
        parts.push((format!("{section} count"), at, at + 1));
        at += 1;
        for number in 0..records {
            let size = match section {
                "device" => called_for(kind, file.get(at..).unwrap_or(&[])),
                "task" => 5,
                _ => 7,
            };
            parts.push((format!("{section} {number}"), at, at + size));
            at += size;
        }
    }
    parts
}

/// How many bytes a device record calls for. In the third kind six, and the powers of its levels if it
/// can have so many, and moves in some time.
fn called_for(kind: FileKind, record: &[u8]) -> usize {
    match (kind, record) {
        (FileKind::First, _) => 7,
        (FileKind::Second, _) => 10,
        (FileKind::Third, [1..=255, _, _, _, _, count @ 1..=4, ..]) => 6 + 2 * usize::from(*count),
        (FileKind::Third, _) => 6,
    }
}

/// The part of a file that ends there, and where it begins.
pub fn part_before(file: &[u8], end: usize) -> Option<(String, usize)> {
    let mut parts = parts(file).into_iter();
    parts
        .find(|(_, _, to)| *to == end)
        .map(|(name, from, _)| (name, from))
}
