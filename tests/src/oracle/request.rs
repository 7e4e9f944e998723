//! The oracle's own reader of a request file: bytes to a request, or the number that refuses them.
//!
//! The file is read from left to right and the first fault decides (rule 15). The reader is therefore
//! a cursor that only moves forward, and every judgement stands at the place in the file where the
//! rule makes it.

/// One of the numbers 1 to 20, or 26.
pub type Refusal = u8;

pub const MOST_DEVICES: u8 = 8;
pub const MOST_TASKS: u8 = 8;
pub const MOST_JOBS: usize = 16;
pub const LONGEST_HORIZON: u32 = 4096;
pub const MOST_LEVELS: u8 = 4;

/// How the device records of a file are laid out: what its first bytes say (rules 75 and 80).
#[derive(Clone, Copy, Debug, Default, PartialEq, Eq)]
pub enum FileKind {
    #[default]
    First,
    Second,
    Third,
}

/// Going down or coming up, by one level.
#[derive(Clone, Copy, Debug, PartialEq, Eq)]
pub struct Move {
    pub ticks: u32,
    pub power: u32,
}

#[derive(Clone, Debug, PartialEq, Eq)]
pub struct Device {
    pub working: u32,
    /// The powers of the levels at which it sleeps, the shallowest first.
    pub levels: Vec<u32>,
    pub shut: Move,
    pub wake: Move,
    /// Its rows name the level at which it sleeps.
    pub numbered: bool,
}

impl Device {
    /// Both moves take the same time at the same power, and there is one level.
    pub fn averaged(transition: u32, working: u32, sleeping: u32, moving: u32) -> Device {
        let both = Move {
            ticks: transition,
            power: moving,
        };
        Device {
            working,
            levels: vec![sleeping],
            shut: both,
            wake: both,
            numbered: false,
        }
    }

    /// What a tick at a level costs; level 0 is work.
    pub fn power_at(&self, level: usize) -> u32 {
        match level {
            0 => self.working,
            _ => self.levels[level - 1],
        }
    }

    /// The power of the deepest level.
    pub fn deepest(&self) -> u32 {
        self.power_at(self.levels.len())
    }

    /// The letter of a tick at a level.
    pub fn letter_at(&self, level: usize) -> char {
        match level {
            0 => 'W',
            _ if self.numbered => ['1', '2', '3', '4'][level - 1],
            _ => 'S',
        }
    }
}

/// A task is known only to the reader: what is planned are the jobs that it unfolds into.
struct Task {
    period: u32,
    running: u32,
    devices: u8,
}

#[derive(Clone, Debug, PartialEq, Eq)]
pub struct Job {
    pub release: u32,
    pub deadline: u32,
    pub running: u32,
    pub devices: u8,
}

impl Job {
    pub fn uses(&self, device: usize) -> bool {
        self.devices >> device & 1 == 1
    }

    /// The last tick at which the job can start and still be in time.
    pub fn latest(&self) -> u32 {
        self.deadline - self.running
    }

    /// Spare ticks for a start: negative is late. Any 16-bit start may be asked for.
    pub fn margin(&self, start: u32) -> i64 {
        i64::from(self.deadline) - (i64::from(start) + i64::from(self.running))
    }
}

#[derive(Clone, Debug, PartialEq, Eq)]
pub struct Request {
    pub horizon: u32,
    /// Tasks are given, so that the round is repeated for ever.
    pub round: bool,
    pub devices: Vec<Device>,
    /// How many tasks are given.
    pub tasks: usize,
    pub jobs: Vec<Job>,
}

/// What can be at fault in a file; a number is that of a device, a task or a job.
#[derive(Clone, Copy, Debug, PartialEq, Eq)]
pub enum Place {
    Horizon,
    DeviceCount,
    Device(usize),
    TaskCount,
    Task(usize),
    JobCount,
    Job(usize),
    End,
}

/// A refusal with its place: its bytes from the first up to, not including, the second. They may not
/// all be there.
#[derive(Clone, Copy, Debug, PartialEq, Eq)]
pub struct Fault {
    pub number: Refusal,
    pub place: Place,
    pub from: usize,
    pub to: usize,
}

/// What is left of the file, and the place that was called for last.
struct Cursor<'a> {
    rest: &'a [u8],
    at: usize,
    place: Place,
    from: usize,
}

impl<'a> Cursor<'a> {
    /// The bytes of what comes next: number 1 stands before every judgement on them.
    fn take(&mut self, place: Place, length: usize) -> Result<&'a [u8], Refusal> {
        (self.place, self.from) = (place, self.at);
        self.more(length)
    }

    /// More bytes of the same place.
    fn more(&mut self, length: usize) -> Result<&'a [u8], Refusal> {
        self.at += length;
        if self.rest.len() < length {
            return Err(1);
        }
        let (record, rest) = self.rest.split_at(length);
        self.rest = rest;
        Ok(record)
    }

    fn byte(&mut self, place: Place) -> Result<u8, Refusal> {
        Ok(self.take(place, 1)?[0])
    }
}

/// The two-byte number at a place of a record, widened so that no later sum can wrap.
fn pair(record: &[u8], place: usize) -> u32 {
    u32::from(record[place]) * 256 + u32::from(record[place + 1])
}

/// The kind of a file and what follows its mark. Only FF 02 and FF 03 are marks.
pub fn unmarked(file: &[u8]) -> (FileKind, &[u8]) {
    match file {
        [0xFF, 2, rest @ ..] => (FileKind::Second, rest),
        [0xFF, 3, rest @ ..] => (FileKind::Third, rest),
        _ => (FileKind::First, file),
    }
}

pub fn read(file: &[u8]) -> Result<Request, Refusal> {
    let (kind, rest) = unmarked(file);
    read_as(kind, rest)
}

/// Where a file is refused, if it is.
pub fn fault(file: &[u8]) -> Option<Fault> {
    let (kind, rest) = unmarked(file);
    fault_as(kind, rest, file.len() - rest.len())
}

/// The same of what follows a mark of so many bytes, of a file of a kind. The place that was called for
/// last is the one at fault.
pub fn fault_as(kind: FileKind, rest: &[u8], mark: usize) -> Option<Fault> {
    let mut cursor = cursor(rest);
    let number = read_on(&mut cursor, kind).err()?;
    Some(Fault {
        number,
        place: cursor.place,
        from: mark + cursor.from,
        to: mark + cursor.at,
    })
}

fn cursor(rest: &[u8]) -> Cursor<'_> {
    Cursor {
        rest,
        at: 0,
        place: Place::Horizon,
        from: 0,
    }
}

/// Reads what follows the mark of a file of a kind.
pub fn read_as(kind: FileKind, rest: &[u8]) -> Result<Request, Refusal> {
    read_on(&mut cursor(rest), kind)
}

fn read_on(cursor: &mut Cursor, kind: FileKind) -> Result<Request, Refusal> {
    let field = pair(cursor.take(Place::Horizon, 2)?, 0);
    let devices = read_devices(cursor, kind)?;
    let tasks = read_tasks(cursor, devices.len())?;
    let job_count = cursor.byte(Place::JobCount)?;
    if !tasks.is_empty() && (field != 0 || job_count != 0) {
        return Err(11);
    }
    let horizon = if tasks.is_empty() {
        given_horizon(field)?
    } else {
        common_horizon(&tasks)?
    };
    let jobs = if tasks.is_empty() {
        read_jobs(cursor, job_count, horizon, devices.len())?
    } else {
        unfold(&tasks, horizon)?
    };
    let left = cursor.rest.len();
    if !cursor.take(Place::End, left)?.is_empty() {
        return Err(2);
    }
    Ok(Request {
        horizon,
        round: !tasks.is_empty(),
        devices,
        tasks: tasks.len(),
        jobs,
    })
}

fn read_devices(cursor: &mut Cursor, kind: FileKind) -> Result<Vec<Device>, Refusal> {
    let count = cursor.byte(Place::DeviceCount)?;
    if count > MOST_DEVICES {
        return Err(3);
    }
    (0..usize::from(count))
        .map(|number| read_device(cursor, kind, Place::Device(number)))
        .collect()
}

fn read_device(cursor: &mut Cursor, kind: FileKind, place: Place) -> Result<Device, Refusal> {
    let device = match kind {
        FileKind::First => {
            let record = cursor.take(place, 7)?;
            let transition = u32::from(record[0]);
            Device::averaged(
                transition,
                pair(record, 1),
                pair(record, 3),
                pair(record, 5),
            )
        }
        FileKind::Second => {
            let record = cursor.take(place, 10)?;
            Device {
                working: pair(record, 2),
                levels: vec![pair(record, 4)],
                shut: Move {
                    ticks: u32::from(record[1]),
                    power: pair(record, 8),
                },
                wake: Move {
                    ticks: u32::from(record[0]),
                    power: pair(record, 6),
                },
                numbered: false,
            }
        }
        FileKind::Third => {
            let front = cursor.take(place, 6)?;
            let (transition, count) = (u32::from(front[0]), front[5]);
            if transition == 0 {
                return Err(4);
            }
            if !(1..=MOST_LEVELS).contains(&count) {
                return Err(26);
            }
            let powers = cursor.more(2 * usize::from(count))?;
            Device {
                levels: powers.chunks(2).map(|power| pair(power, 0)).collect(),
                numbered: true,
                ..Device::averaged(transition, pair(front, 1), 0, pair(front, 3))
            }
        }
    };
    let moves = [device.shut, device.wake];
    if moves.iter().any(|one| one.ticks == 0) {
        return Err(4);
    }
    let first = device.levels[0];
    let falls = device.levels.windows(2).all(|pair| pair[0] > pair[1]);
    if !falls || device.working <= first || moves.iter().any(|one| one.power <= first) {
        return Err(5);
    }
    Ok(device)
}

fn read_tasks(cursor: &mut Cursor, devices: usize) -> Result<Vec<Task>, Refusal> {
    let count = cursor.byte(Place::TaskCount)?;
    if count > MOST_TASKS {
        return Err(6);
    }
    (0..usize::from(count))
        .map(|number| read_task(cursor, Place::Task(number), devices))
        .collect()
}

fn read_task(cursor: &mut Cursor, place: Place, devices: usize) -> Result<Task, Refusal> {
    let record = cursor.take(place, 5)?;
    let task = Task {
        period: pair(record, 0),
        running: pair(record, 2),
        devices: record[4],
    };
    if !(1..=LONGEST_HORIZON).contains(&task.period) {
        return Err(7);
    }
    if !(1..=task.period).contains(&task.running) {
        return Err(8);
    }
    if names_missing_device(task.devices, devices) {
        return Err(9);
    }
    Ok(task)
}

fn names_missing_device(set: u8, devices: usize) -> bool {
    (devices..8).any(|device| set >> device & 1 == 1)
}

fn given_horizon(field: u32) -> Result<u32, Refusal> {
    if (1..=LONGEST_HORIZON).contains(&field) {
        Ok(field)
    } else {
        Err(10)
    }
}

/// The least common multiple, by its definition: the first length that every period divides. A
/// longer one than the limit is refused, so there is no need to know it.
fn common_horizon(tasks: &[Task]) -> Result<u32, Refusal> {
    (1..=LONGEST_HORIZON)
        .find(|length| tasks.iter().all(|task| length % task.period == 0))
        .ok_or(10)
}

/// Jobs by release, and for one release by task number: ticks outside, tasks inside.
fn unfold(tasks: &[Task], horizon: u32) -> Result<Vec<Job>, Refusal> {
    let mut jobs = Vec::new();
    for release in 0..horizon {
        for task in tasks.iter().filter(|task| release % task.period == 0) {
            jobs.push(Job {
                release,
                deadline: release + task.period,
                running: task.running,
                devices: task.devices,
            });
        }
    }
    if jobs.len() > MOST_JOBS {
        return Err(12);
    }
    Ok(jobs)
}

fn read_jobs(
    cursor: &mut Cursor,
    count: u8,
    horizon: u32,
    devices: usize,
) -> Result<Vec<Job>, Refusal> {
    if usize::from(count) > MOST_JOBS {
        return Err(12);
    }
    (0..usize::from(count))
        .map(|number| read_job(cursor, Place::Job(number), horizon, devices))
        .collect()
}

fn read_job(
    cursor: &mut Cursor,
    place: Place,
    horizon: u32,
    devices: usize,
) -> Result<Job, Refusal> {
    let record = cursor.take(place, 7)?;
    let job = Job {
        release: pair(record, 0),
        deadline: pair(record, 2),
        running: pair(record, 4),
        devices: record[6],
    };
    if names_missing_device(job.devices, devices) {
        return Err(9);
    }
    if job.running == 0 || job.release + job.running > job.deadline || job.deadline > horizon {
        return Err(13);
    }
    Ok(job)
}

#[cfg(test)]
mod tests {
    use super::*;

    const A: [u8; 7] = [1, 0, 5, 0, 1, 0, 3];

    fn refusal(sections: &[&[u8]]) -> Refusal {
        read(&sections.concat()).expect_err("a refusal")
    }

    #[test]
    fn a_missing_byte_comes_before_the_faults_of_its_record() {
        assert_eq!(refusal(&[&[0]]), 1);
        assert_eq!(refusal(&[&[0, 0]]), 1);
        assert_eq!(refusal(&[&[0, 9, 1, 0, 0, 5, 0, 1, 0]]), 1);
        assert_eq!(refusal(&[&[0, 9, 0, 1, 0, 0, 0, 0]]), 1);
        assert_eq!(refusal(&[&[0, 9, 0, 0, 1, 0, 0, 0, 0, 0, 0]]), 1);
    }

    #[test]
    fn a_fault_comes_before_bytes_that_are_missing_later() {
        assert_eq!(refusal(&[&[0, 9, 9]]), 3);
        assert_eq!(refusal(&[&[0, 9, 2, 0, 0, 5, 0, 1, 0, 3]]), 4);
        assert_eq!(refusal(&[&[0, 9, 0, 9]]), 6);
        assert_eq!(refusal(&[&[0, 9, 0, 0, 17]]), 12);
        assert_eq!(refusal(&[&[0, 9, 0, 0, 2, 0, 0, 0, 9, 0, 0, 0]]), 13);
    }

    /// The place is the one that was called for last, with all of its bytes that were called for.
    #[test]
    fn the_place_of_a_fault() {
        let at = |file: &[u8]| {
            fault(file).map(|found| (found.number, found.place, found.from, found.to))
        };
        assert_eq!(at(&[0]), Some((1, Place::Horizon, 0, 2)));
        assert_eq!(at(&[255, 2, 0, 9]), Some((1, Place::DeviceCount, 4, 5)));
        assert_eq!(at(&[0, 9, 0, 0, 0]), None);
        assert_eq!(at(&[0, 0, 0, 0, 0]), Some((10, Place::JobCount, 4, 5)));
        assert_eq!(at(&[0, 9, 0, 0, 0, 7, 7]), Some((2, Place::End, 5, 7)));
        let cut = [&[0, 9, 2], &A[..], &[1, 0]].concat();
        assert_eq!(at(&cut), Some((1, Place::Device(1), 10, 17)));
        let powers = [255, 3, 0, 9, 1, 1, 0, 9, 0, 9, 3, 0, 2];
        assert_eq!(at(&powers), Some((1, Place::Device(0), 5, 17)));
        let levels = [255, 3, 0, 9, 1, 1, 0, 9, 0, 9, 5, 0, 2];
        assert_eq!(at(&levels), Some((26, Place::Device(0), 5, 11)));
    }

    /// A record of the second kind has ten bytes: all of them are called for before any is judged.
    #[test]
    fn a_record_of_the_second_kind() {
        let head = [255, 2, 0, 9, 1];
        assert_eq!(refusal(&[&[255]]), 1);
        assert_eq!(refusal(&[&[255, 2]]), 1);
        assert_eq!(refusal(&[&[255, 2, 0, 0, 0, 0, 0]]), 10);
        assert_eq!(refusal(&[&head, &[0, 0, 0, 1, 0, 1, 0, 1, 0]]), 1);
        assert_eq!(refusal(&[&head, &[0, 3, 0, 9, 0, 9, 0, 4, 0, 2]]), 4);
        assert_eq!(refusal(&[&head, &[1, 0, 0, 9, 0, 1, 0, 4, 0, 2]]), 4);
        assert_eq!(refusal(&[&head, &[1, 3, 0, 1, 0, 1, 0, 4, 0, 2]]), 5);
        assert_eq!(refusal(&[&head, &[1, 3, 0, 9, 0, 1, 0, 1, 0, 2]]), 5);
        assert_eq!(refusal(&[&head, &[1, 3, 0, 9, 0, 1, 0, 4, 0, 1]]), 5);
        let device = [1, 3, 0, 9, 0, 1, 0, 4, 0, 2];
        assert!(read(&[&head, &device[..], &[0, 0]].concat()).is_ok());
    }

    /// In a record of the third kind the first six bytes are judged before the powers are called for.
    #[test]
    fn a_record_of_the_third_kind() {
        let head = [255, 3, 0, 9, 1];
        let number = |record: &[u8]| read(&[&head, record, &[0, 0]].concat()).err();
        assert_eq!(refusal(&[&[255, 3]]), 1);
        assert_eq!(refusal(&[&[255, 3, 0, 0, 0, 0, 0]]), 10);
        assert_eq!(refusal(&[&head, &[0, 0, 9, 0, 4]]), 1);
        assert_eq!(refusal(&[&head, &[0, 0, 9, 0, 4, 9]]), 4);
        for count in [0, 5, 6, 128, 255] {
            assert_eq!(refusal(&[&head, &[1, 0, 9, 0, 4, count]]), 26);
        }
        assert_eq!(refusal(&[&head, &[1, 0, 9, 0, 4, 1]]), 1);
        assert_eq!(refusal(&[&head, &[1, 0, 0, 0, 0, 2, 0, 3, 0]]), 1);
        assert_eq!(number(&[1, 0, 9, 0, 4, 2, 0, 3, 0, 3]), Some(5));
        assert_eq!(number(&[1, 0, 9, 0, 4, 3, 0, 3, 0, 1, 0, 2]), Some(5));
        assert_eq!(number(&[1, 0, 9, 0, 3, 1, 0, 3]), Some(5));
        assert_eq!(number(&[1, 0, 3, 0, 9, 1, 0, 3]), Some(5));
        assert_eq!(number(&[1, 0, 9, 0, 4, 1, 0, 3]), None);
        assert_eq!(number(&[1, 0, 4, 0, 9, 1, 0, 3]), None);
        let four = [1, 0, 9, 0, 4, 4, 0, 3, 0, 2, 0, 1, 0, 0];
        assert_eq!(number(&four), None);
        assert_eq!(refusal(&[&head, &four[..13]]), 1);
    }

    /// No other mark is one: what begins with FF is of the first kind, and refused.
    #[test]
    fn only_ff_02_and_ff_03_are_marks() {
        for second in (0..=255).filter(|byte| ![2, 3].contains(byte)) {
            let file = [255, second, 0, 0, 0];
            assert_eq!(read(&file), Err(10), "{second}");
        }
    }

    #[test]
    fn in_one_record_the_lower_number_decides() {
        assert_eq!(refusal(&[&[0, 9, 1, 0, 0, 1, 0, 1, 0, 1]]), 4);
        assert_eq!(refusal(&[&[0, 0, 0, 1, 0, 0, 0, 0, 1, 0]]), 7);
        assert_eq!(refusal(&[&[0, 0, 0, 1, 0, 4, 0, 5, 1, 0]]), 8);
        assert_eq!(refusal(&[&[0, 0, 0, 1, 0, 4, 0, 4, 1, 0]]), 9);
        assert_eq!(refusal(&[&[0, 9, 1], &A, &[0, 1, 0, 0, 0, 9, 0, 0, 2]]), 9);
        assert_eq!(refusal(&[&[0, 9, 1], &A, &[0, 1, 0, 0, 0, 9, 0, 0, 1]]), 13);
    }

    /// 11, 10 and 12 wait for the job count, and then come in this order.
    #[test]
    fn after_the_job_count() {
        let (long, many) = (
            [15, 255, 0, 1, 0, 16, 0, 0, 1, 0],
            [0, 1, 0, 1, 0, 0, 16, 0, 1, 0],
        );
        assert_eq!(refusal(&[&[0, 0, 0, 2], &long]), 1);
        assert_eq!(refusal(&[&[0, 9, 0, 2], &long, &[0]]), 11);
        assert_eq!(refusal(&[&[0, 0, 0, 2], &long, &[17]]), 11);
        assert_eq!(refusal(&[&[0, 0, 0, 2], &long, &[0, 99]]), 10);
        assert_eq!(refusal(&[&[0, 0, 0, 2], &many, &[0, 99]]), 12);
        assert_eq!(refusal(&[&[0, 0, 0, 2], &many, &[1]]), 11);
        assert_eq!(refusal(&[&[0, 0, 0, 0, 17]]), 10);
        assert_eq!(refusal(&[&[16, 1, 0, 0, 17]]), 10);
    }

    #[test]
    fn sums_do_not_wrap_at_16_bits() {
        let job = |record: [u8; 7]| read(&[&[0, 9, 0, 0, 1], &record[..]].concat());
        assert_eq!(job([255, 255, 0, 9, 0, 2, 0]), Err(13));
        assert!(job([0, 7, 0, 9, 0, 2, 0]).is_ok());
    }
}
