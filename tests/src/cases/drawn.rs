//! The cases: what is fed to the program, kind by kind, each drawn from its own number and a seed.

use crate::cases::random::Random;
use crate::cases::tables::Tables;
use crate::cases::{damage, faults, second, third, valid};
use crate::oracle::listing;
use crate::oracle::request::{read, Job, Request};

#[derive(Clone, Copy, Debug, PartialEq, Eq, PartialOrd, Ord)]
pub enum Kind {
    Jobs,
    Dear,
    Second,
    SecondFault,
    Third,
    ThirdFault,
    Tasks,
    Rounds,
    Tight,
    OverBudget,
    NearLimits,
    CutShort,
    Changed,
    Added,
    CountChanged,
    OneFault,
    TwoFaults,
    Noise,
    Long,
    LongFault,
}

impl Kind {
    pub fn name(self) -> &'static str {
        match self {
            Kind::Jobs => "valid job lists",
            Kind::Dear => "devices dear to move",
            Kind::Second => "of the second kind",
            Kind::SecondFault => "of the second kind, damaged",
            Kind::Third => "of the third kind",
            Kind::ThirdFault => "of the third kind, damaged",
            Kind::Tasks => "valid task lists",
            Kind::Rounds => "rounds of devices dear to move, or unused",
            Kind::Tight => "tight windows, aimed at 19",
            Kind::OverBudget => "loose jobs, aimed at 20",
            Kind::NearLimits => "near the limits",
            Kind::CutShort => "cut short",
            Kind::Changed => "bytes changed",
            Kind::Added => "bytes added",
            Kind::CountChanged => "a count changed",
            Kind::OneFault => "one fault put in",
            Kind::TwoFaults => "two faults put in",
            Kind::Noise => "random bytes",
            Kind::Long => "long, bytes after a valid file",
            Kind::LongFault => "long, refused for another reason",
        }
    }
}

pub struct Case {
    pub kind: Kind,
    pub file: Vec<u8>,
    /// Lengths of the pieces in which the file is fed.
    pub pieces: Vec<usize>,
}

/// The kinds in turn, so that any hundred cases have all of them. A case over the budget costs a
/// million vertices on both sides, so there is only one.
const ROUND: [(Kind, u64); 20] = [
    (Kind::Jobs, 6),
    (Kind::Dear, 6),
    (Kind::Second, 7),
    (Kind::SecondFault, 5),
    (Kind::Third, 9),
    (Kind::ThirdFault, 7),
    (Kind::Tasks, 5),
    (Kind::Rounds, 4),
    (Kind::Tight, 6),
    (Kind::OverBudget, 1),
    (Kind::NearLimits, 5),
    (Kind::CutShort, 5),
    (Kind::Changed, 6),
    (Kind::Added, 4),
    (Kind::CountChanged, 4),
    (Kind::OneFault, 8),
    (Kind::TwoFaults, 5),
    (Kind::Noise, 4),
    (Kind::Long, 2),
    (Kind::LongFault, 1),
];

fn kind_of(number: u64) -> Kind {
    let mut place = number % 100;
    for (kind, share) in ROUND {
        if place < share {
            return kind;
        }
        place -= share;
    }
    unreachable!("the shares of a round add up to 100")
}

/// The case of a number: the same for the same seed, whatever was drawn before.
pub fn draw(seed: u64, number: u64) -> Case {
    draw_of(kind_of(number), seed, number)
}

/// Of one kind only.
pub fn draw_of(kind: Kind, seed: u64, number: u64) -> Case {
    let mut random = Random::new(seed, number);
    let file = loop {
        let file = file_of(&mut random, kind);
        if kind == Kind::OverBudget || read(&file).map_or(true, |request| is_small(&request)) {
            break file;
        }
    };
    let pieces = pieces(&mut random, file.len());
    Case { kind, file, pieces }
}

fn file_of(random: &mut Random, kind: Kind) -> Vec<u8> {
    match kind {
        Kind::Jobs => valid::job_list(random).bytes(),
        Kind::Dear => valid::dear_list(random).bytes(),
        Kind::Second => second::accepted(random).bytes(),
        Kind::SecondFault => second::damaged(random),
        Kind::Third => third::accepted(random).bytes(),
        Kind::ThirdFault => third::damaged(random),
        Kind::Tasks => accepted_tasks(random).bytes(),
        Kind::Rounds => accepted(random, valid::dear_round).bytes(),
        Kind::Tight => tight(random).bytes(),
        Kind::OverBudget => over_budget(random).bytes(),
        Kind::NearLimits => near_limits(random).bytes(),
        Kind::CutShort => {
            let file = any(random).bytes();
            damage::cut_short(random, file)
        }
        Kind::Changed => {
            let file = any(random).bytes();
            damage::change(random, file)
        }
        Kind::Added => {
            let file = any(random).bytes();
            damage::add(random, file)
        }
        Kind::CountChanged => count_changed(random),
        Kind::OneFault => faulty(random, 1),
        Kind::TwoFaults => faulty(random, 2),
        Kind::Noise => damage::noise(random, 60),
        Kind::Long => {
            let file = any(random).bytes();
            damage::lengthen(random, file)
        }
        Kind::LongFault => {
            let file = faulty(random, 1);
            damage::lengthen(random, file)
        }
    }
}

/// Periods drawn one by one may have a long common multiple: only accepted tables are kept.
fn accepted(random: &mut Random, tables: fn(&mut Random) -> Tables) -> Tables {
    loop {
        let tables = tables(random);
        if read(&tables.bytes()).is_ok() {
            return tables;
        }
    }
}

fn accepted_tasks(random: &mut Random) -> Tables {
    accepted(random, valid::task_list)
}

fn tight(random: &mut Random) -> Tables {
    if random.one_in(4) {
        let (loose, room) = (random.within(1, 4), random.u16(4, 6));
        valid::hopeless_list(random, loose, room)
    } else {
        valid::tight_list(random)
    }
}

/// One in two has a schedule: 20 must be said with a best at hand and without one.
fn over_budget(random: &mut Random) -> Tables {
    if random.one_in(2) {
        valid::loose_list(random)
    } else {
        let (loose, room) = (random.within(7, 12), random.u16(16, 24));
        valid::hopeless_list(random, loose, room)
    }
}

fn near_limits(random: &mut Random) -> Tables {
    match random.within(1, 10) {
        1..=3 => valid::long_list(random),
        4..=6 => valid::crowded_list(random),
        7 | 8 => valid::many_devices(random),
        9 => valid::long_tasks(random),
        _ => valid::most_energy(random),
    }
}

/// A valid table of any kind, to be damaged.
fn any(random: &mut Random) -> Tables {
    match random.within(1, 6) {
        1..=3 => valid::job_list(random),
        4 | 5 => accepted_tasks(random),
        _ => valid::crowded_list(random),
    }
}

fn count_changed(random: &mut Random) -> Vec<u8> {
    let tables = any(random);
    let mut file = tables.bytes();
    let place = random.pick(&tables.count_places());
    file[place] = match random.within(1, 4) {
        1 => file[place].wrapping_add(1),
        2 => file[place].wrapping_sub(1),
        3 => random.pick(&[8, 9, 16, 17]),
        _ => random.u8(0, 255),
    };
    file
}

fn faulty(random: &mut Random, count: usize) -> Vec<u8> {
    let mut tables = any(random);
    for _ in 0..count {
        let number = random.pick(&faults::NUMBERS);
        faults::put(random, &mut tables, number);
    }
    tables.bytes()
}

/// Small enough to write out the listing, and to work out the rows of every use that comes up.
fn is_small(request: &Request) -> bool {
    let ways = |job: &Job| u64::from(job.latest() - job.release + 2);
    let cells = |device: usize| {
        let powers = &request.devices[device];
        let between = u64::from(powers.shut.ticks + powers.wake.ticks + 1);
        (between * powers.levels.len() as u64 + 1) * u64::from(request.horizon)
    };
    let row_steps = |device: usize| {
        let jobs = request.jobs.iter().filter(|job| job.uses(device));
        jobs.fold(cells(device), |steps, job| steps.saturating_mul(ways(job)))
    };
    let devices = 0..request.devices.len();
    listing::size(request) <= 100_000
        && devices.clone().map(row_steps).fold(0, u64::saturating_add) <= 60_000_000
        && devices.map(cells).all(|cells| cells <= 3_000_000)
}

/// Most files come in one piece. (`slow` has those that tell a program which stops at its first read.)
fn pieces(random: &mut Random, length: usize) -> Vec<usize> {
    let mut pieces = Vec::new();
    let mut left = length;
    if random.one_in(8) {
        for _ in 0..random.within(1, 5) {
            let piece = random.within(0, left as u64) as usize;
            pieces.push(piece);
            left -= piece;
        }
    }
    pieces.push(left);
    pieces
}

#[cfg(test)]
mod tests {
    use super::*;

    #[test]
    fn a_round_has_every_kind_as_often_as_its_share() {
        for (kind, share) in ROUND {
            let met = (0..100).filter(|&number| kind_of(number) == kind).count();
            assert_eq!(met as u64, share, "{}", kind.name());
        }
    }

    #[test]
    fn a_case_depends_on_its_seed_and_its_number_only() {
        assert_eq!(draw(5, 7).file, draw(5, 7).file);
        assert_ne!(draw(5, 7).file, draw(6, 7).file);
        assert_ne!(draw(5, 7).file, draw(5, 8).file);
    }

    /// What is called valid is accepted, and each fault put in alone is refused by its number,
    /// or by one that stands before it in the file.
    #[test]
    fn kinds_are_what_they_are_called() {
        let valid = [
            Kind::Jobs,
            Kind::Dear,
            Kind::Second,
            Kind::Third,
            Kind::Tasks,
            Kind::Rounds,
            Kind::Tight,
            Kind::NearLimits,
        ];
        for number in 0..300 {
            let case = draw(11, number);
            let read = read(&case.file);
            assert_eq!(case.pieces.iter().sum::<usize>(), case.file.len());
            if valid.contains(&case.kind) {
                assert!(read.is_ok(), "{:?} {:?}", case.kind, case.file);
            }
            match case.kind {
                Kind::CutShort => assert_eq!(read, Err(1)),
                Kind::Long => assert_eq!(read, Err(2)),
                Kind::OneFault | Kind::LongFault => assert!(read.is_err()),
                _ => {}
            }
        }
    }
}
