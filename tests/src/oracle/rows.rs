//! The row given (rule 37), by dynamic programming over the rules of a legal row (31 to 35).
//!
//! The program under test fills gaps by a rule about their length and their cost. This file must not
//! know that rule: it only steps from tick to tick through every state that the rules allow, and keeps
//! the least energy with which each state can be reached, and of the ways that cost as little the
//! fewest ticks in which the device moves: of several levels that is the shallowest. A row that is
//! repeated for ever (rule 86) is a cycle of states: it is stepped through from a used tick, after which
//! the device works, to that tick again.

use crate::oracle::request::{Device, Move, Request};
use std::cmp::Ordering;
use std::collections::HashMap;

/// The ticks from the first number up to, not including, the second.
pub type Use = (u32, u32);

/// The ways to a state that have the least energy: what they cost, and the fewest and the most ticks in
/// which one of them moves.
#[derive(Clone, Copy)]
struct Ways {
    energy: u64,
    fewest: u64,
    most: u64,
}

impl Ways {
    /// No legal row comes to the state. Adding to this energy saturates, so it stays.
    const NONE: Ways = Ways {
        energy: u64::MAX,
        fewest: 0,
        most: 0,
    };

    const BEGIN: Ways = Ways {
        energy: 0,
        fewest: 0,
        most: 0,
    };

    /// Both kinds of ways lead here.
    fn or(self, other: Ways) -> Ways {
        match self.energy.cmp(&other.energy) {
            Ordering::Less => self,
            Ordering::Greater => other,
            Ordering::Equal => Ways {
                energy: self.energy,
                fewest: self.fewest.min(other.fewest),
                most: self.most.max(other.most),
            },
        }
    }

    /// A tick more, in which the device stays where it is.
    fn stays(self, power: u32) -> Ways {
        Ways {
            energy: self.energy.saturating_add(u64::from(power)),
            ..self
        }
    }

    /// A tick more, in which it goes down or comes up.
    fn moves(self, power: u32) -> Ways {
        let after = self.stays(power);
        Ways {
            fewest: after.fewest + 1,
            most: after.most + 1,
            ..after
        }
    }

    /// What rows are compared by: the energy, then the ticks of moving.
    fn rank(self) -> (u64, u64) {
        (self.energy, self.fewest)
    }
}

/// For each state after some tick the ways there: at a level, of which 0 is work, or on the way between
/// one and the next deeper one, by the shallower of the two and the ticks left.
struct Column {
    at: Vec<Ways>,
    down: Vec<Vec<Ways>>,
    up: Vec<Vec<Ways>>,
}

impl Column {
    fn impossible(device: &Device) -> Column {
        let levels = device.levels.len();
        let moves = |one: Move| vec![vec![Ways::NONE; one.ticks as usize]; levels];
        Column {
            at: vec![Ways::NONE; levels + 1],
            down: moves(device.shut),
            up: moves(device.wake),
        }
    }

    /// The device works just before tick 0.
    fn before_the_row(device: &Device) -> Column {
        let mut column = Column::impossible(device);
        column.at[0] = Ways::BEGIN;
        column
    }

    /// The device works just after the last tick: the row ends in W or with a whole block of U.
    fn at_the_end(&self) -> Ways {
        self.at[0].or(self.up[0][0])
    }

    /// The ways to be at a level: it has stayed there, or a move to it is over. One that came up to work
    /// has to work first.
    fn rests(&self, level: usize) -> impl Iterator<Item = (State, Ways)> + '_ {
        let stays = [(State::At(level), self.at[level])];
        let fallen = level.checked_sub(1);
        let fallen = fallen.map(|above| (State::Down(above, 0), self.down[above][0]));
        let risen = self.up.get(level).filter(|_| level > 0);
        let risen = risen.map(|up| (State::Up(level, 0), up[0]));
        stays.into_iter().chain(fallen).chain(risen)
    }

    fn at_rest(&self, level: usize) -> Ways {
        self.rests(level)
            .fold(Ways::NONE, |ways, (_, other)| ways.or(other))
    }

    /// One tick on. A used tick can only be W.
    fn step(&self, device: &Device, used: bool) -> Column {
        let mut next = Column::impossible(device);
        next.at[0] = self.at_the_end().stays(device.working);
        if used {
            return next;
        }
        let levels = device.levels.len();
        for level in 1..=levels {
            next.at[level] = self.at_rest(level).stays(device.power_at(level));
        }
        for above in 0..levels {
            let begun = (self.at_rest(above), self.at_rest(above + 1));
            move_on(
                &mut next.down[above],
                &self.down[above],
                begun.0,
                device.shut,
            );
            move_on(&mut next.up[above], &self.up[above], begun.1, device.wake);
        }
        next
    }
}

/// A tick of a move, which is its first or not.
fn move_on(next: &mut [Ways], moves: &[Ways], begun: Ways, one: Move) {
    let last = moves.len() - 1;
    for left in 0..last {
        next[left] = moves[left + 1].moves(one.power);
    }
    next[last] = begun.moves(one.power);
}

fn used_ticks(uses: &[Use], length: u32) -> Vec<bool> {
    (0..length)
        .map(|tick| uses.iter().any(|&(from, to)| from <= tick && tick < to))
        .collect()
}

/// From work to work.
fn ways(device: &Device, ticks: &[bool]) -> Ways {
    let mut column = Column::before_the_row(device);
    for &used in ticks {
        column = column.step(device, used);
    }
    column.at_the_end()
}

/// A used tick, and the ticks of the cycle from the one after it to the one before it.
fn cycle(uses: &[Use], length: u32) -> Option<(usize, Vec<bool>)> {
    let ticks = used_ticks(uses, length);
    let used = ticks.iter().position(|&used| used)?;
    let others = [&ticks[used + 1..], &ticks[..used]].concat();
    Some((used, others))
}

/// No letter costs less than the deepest level's, so that a cycle without a use is all that.
fn round_ways(device: &Device, uses: &[Use], length: u32) -> Ways {
    match cycle(uses, length) {
        Some((_, others)) => ways(device, &others).stays(device.working),
        None => (0..length).fold(Ways::BEGIN, |ways, _| ways.stays(device.deepest())),
    }
}

fn ways_of(round: bool, device: &Device, uses: &[Use], length: u32) -> Ways {
    if round {
        round_ways(device, uses, length)
    } else {
        ways(device, &used_ticks(uses, length))
    }
}

/// The least energy of a legal row of the given length.
pub fn least_energy(device: &Device, uses: &[Use], length: u32) -> u64 {
    ways_of(false, device, uses, length).energy
}

/// The least energy of a gap, from work to work, by its length from 0 on.
pub fn gap_energies(device: &Device, longest: u32) -> Vec<u64> {
    let mut column = Column::before_the_row(device);
    let mut energies = vec![column.at_the_end().energy];
    for _ in 0..longest {
        column = column.step(device, false);
        energies.push(column.at_the_end().energy);
    }
    energies
}

/// The least energy of a row that is legal repeated for ever.
pub fn round_energy(device: &Device, uses: &[Use], length: u32) -> u64 {
    ways_of(true, device, uses, length).energy
}

/// Whether the tie decides: a legal row that costs as little as the one given moves in more ticks.
pub fn is_tied(round: bool, device: &Device, uses: &[Use], length: u32) -> bool {
    let ways = ways_of(round, device, uses, length);
    ways.fewest < ways.most
}

/// Where a device stands after a tick: at a level, or on the way between one and the next deeper one,
/// with the ticks left.
#[derive(Clone, Copy)]
enum State {
    At(usize),
    Down(usize, usize),
    Up(usize, usize),
}

impl State {
    fn letter(self, device: &Device) -> char {
        match self {
            State::At(level) => device.letter_at(level),
            State::Down(..) => 'D',
            State::Up(..) => 'U',
        }
    }

    /// The state one tick earlier on the best way here.
    fn before(self, earlier: &Column) -> State {
        match self {
            State::At(0) => end_state(earlier),
            State::At(level) => best(earlier.rests(level)),
            State::Down(above, left) if left + 1 < earlier.down[above].len() => {
                State::Down(above, left + 1)
            }
            State::Down(above, _) => best(earlier.rests(above)),
            State::Up(above, left) if left + 1 < earlier.up[above].len() => {
                State::Up(above, left + 1)
            }
            State::Up(above, _) => best(earlier.rests(above + 1)),
        }
    }
}

/// Two ways of one rank would be two rows that could be given, which rule 37 rules out.
fn best(all: impl Iterator<Item = (State, Ways)>) -> State {
    let mut all: Vec<(State, Ways)> = all.collect();
    all.sort_by_key(|(_, ways)| ways.rank());
    if let [one, other, ..] = all[..] {
        assert_ne!(one.1.rank(), other.1.rank(), "two rows to be given");
    }
    all[0].0
}

fn end_state(column: &Column) -> State {
    let ends = [
        (State::At(0), column.at[0]),
        (State::Up(0, 0), column.up[0][0]),
    ];
    best(ends.into_iter())
}

/// The best letters from work to work.
fn letters(device: &Device, ticks: &[bool]) -> Vec<char> {
    let mut columns = vec![Column::before_the_row(device)];
    for &used in ticks {
        let next = columns[columns.len() - 1].step(device, used);
        columns.push(next);
    }
    let mut letters = Vec::new();
    let mut state = end_state(&columns[ticks.len()]);
    for earlier in columns[..ticks.len()].iter().rev() {
        letters.push(state.letter(device));
        state = state.before(earlier);
    }
    letters.reverse();
    letters
}

/// The row given, as its letters.
pub fn row_given(round: bool, device: &Device, uses: &[Use], length: u32) -> String {
    if !round {
        return letters(device, &used_ticks(uses, length)).iter().collect();
    }
    match cycle(uses, length) {
        None => {
            let deepest = device.letter_at(device.levels.len());
            deepest.to_string().repeat(length as usize)
        }
        Some((used, others)) => {
            let (after, before) = (length as usize - used - 1, letters(device, &others));
            let (last, first) = before.split_at(after);
            first.iter().chain(&['W']).chain(last).collect()
        }
    }
}

/// Least energies that were worked out before. Schedules differ in many jobs but repeat the uses of
/// one device all the time.
pub struct Energies<'a> {
    devices: &'a [Device],
    rule: Rule,
    known: Vec<HashMap<Vec<Use>, u64>>,
}

/// The energy of a device with these uses over so many ticks.
pub type Rule = fn(&Device, &[Use], u32) -> u64;

impl<'a> Energies<'a> {
    /// By the rule of the request's kind (rule 85).
    pub fn of(request: &'a Request) -> Energies<'a> {
        let rule: Rule = if request.round {
            round_energy
        } else {
            least_energy
        };
        Energies::by(&request.devices, rule)
    }

    pub fn by(devices: &'a [Device], rule: Rule) -> Energies<'a> {
        Energies {
            devices,
            rule,
            known: vec![HashMap::new(); devices.len()],
        }
    }

    /// `uses` in rising order, closed by a pair that says how long the row is: (length, length).
    pub fn least(&mut self, device: usize, uses: &[Use]) -> u64 {
        if let Some(&energy) = self.known[device].get(uses) {
            return energy;
        }
        let length = uses[uses.len() - 1].1;
        let energy = (self.rule)(&self.devices[device], uses, length);
        self.known[device].insert(uses.to_vec(), energy);
        energy
    }
}

#[cfg(test)]
mod tests {
    use super::*;

    /// Rules 31 to 35 again, read off the finished row run by run.
    fn is_legal(row: &[u8], device: &Device, used: &[bool]) -> bool {
        let runs: Vec<&[u8]> = row.chunk_by(|one, next| one == next).collect();
        let letter = |place: Option<usize>| {
            let run = place.and_then(|place| runs.get(place));
            run.map_or(b'W', |run| run[0])
        };
        let whole = |run: &[u8], one: Move| run.len() as u32 == one.ticks;
        let fits = |(place, run): (usize, &&[u8])| {
            let (before, after) = (letter(place.checked_sub(1)), letter(Some(place + 1)));
            match run[0] {
                b'D' => whole(run, device.shut) && before == b'W' && b"SU".contains(&after),
                b'S' => before == b'D' && after == b'U',
                b'U' => whole(run, device.wake) && b"DS".contains(&before) && after == b'W',
                _ => true,
            }
        };
        let works = |(tick, used): (usize, &bool)| !used || row[tick] == b'W';
        runs.iter().enumerate().all(fits) && used.iter().enumerate().all(works)
    }

    fn energy(row: &[u8], device: &Device) -> u64 {
        let power = |letter: &u8| match letter {
            b'W' => device.working,
            b'D' => device.shut.power,
            b'U' => device.wake.power,
            b'S' => device.levels[0],
            level => device.power_at(usize::from(level - b'0')),
        };
        row.iter().map(|letter| u64::from(power(letter))).sum()
    }

    fn moves(row: &[u8]) -> usize {
        row.iter().filter(|letter| b"DU".contains(letter)).count()
    }

    /// Every word of four letters, one for each number below 4 to the length.
    fn words(length: u32) -> impl Iterator<Item = Vec<u8>> {
        let word = move |number: usize| -> Vec<u8> {
            let letter = |tick: u32| b"WDSU"[number >> (2 * tick) & 3];
            (0..length).map(letter).collect()
        };
        (0..1 << (2 * length)).map(word)
    }

    /// Rule 86 read off the row repeated four times: whatever runs wholly inside of these is legal, and
    /// none of them goes on for ever but W and S.
    fn is_legal_for_ever(row: &[u8], device: &Device, used: &[bool]) -> bool {
        let works = |(tick, used): (usize, &bool)| !used || row[tick] == b'W';
        if !used.iter().enumerate().all(works) {
            return false;
        }
        let long = row.repeat(4);
        let runs: Vec<&[u8]> = long.chunk_by(|one, next| one == next).collect();
        let [_, inside @ .., _] = &runs[..] else {
            return b"WS".contains(&row[0]);
        };
        let whole = |run: &[u8], one: Move| run.len() as u32 == one.ticks;
        (1..=inside.len()).all(|place| {
            let (before, run, after) = (runs[place - 1][0], runs[place], runs[place + 1][0]);
            match run[0] {
                b'D' => whole(run, device.shut) && before == b'W' && b"SU".contains(&after),
                b'S' => before == b'D' && after == b'U',
                b'U' => whole(run, device.wake) && b"DS".contains(&before) && after == b'W',
                _ => true,
            }
        })
    }

    /// All legal rows of a length, written out, for one pattern of use. One if the tie decides.
    fn check_pattern(
        round: bool,
        device: &Device,
        pattern: u32,
        rows: &[Vec<u8>],
        length: u32,
    ) -> u64 {
        let used: Vec<bool> = (0..length).map(|tick| pattern >> tick & 1 == 1).collect();
        let uses: Vec<Use> = (0..length)
            .filter(|&tick| used[tick as usize])
            .map(|tick| (tick, tick + 1))
            .collect();
        let legal = rows.iter().filter(|row| {
            if round {
                is_legal_for_ever(row, device, &used)
            } else {
                is_legal(row, device, &used)
            }
        });
        let least = legal.clone().map(|row| energy(row, device)).min().unwrap();
        let cheapest: Vec<&Vec<u8>> = legal.filter(|row| energy(row, device) == least).collect();
        let fewest = cheapest.iter().map(|row| moves(row)).min().unwrap();
        let (given, others): (Vec<&Vec<u8>>, Vec<&Vec<u8>>) =
            cheapest.iter().partition(|row| moves(row) == fewest);
        assert_eq!(ways_of(round, device, &uses, length).energy, least);
        assert_eq!(given, [row_given(round, device, &uses, length).as_bytes()]);
        assert_eq!(is_tied(round, device, &uses, length), !others.is_empty());
        u64::from(!others.is_empty())
    }

    /// Both moves alike, cheaper than work, as dear and dearer; then moves of which one takes longer
    /// or costs more.
    const MOVES: [((u32, u32), (u32, u32)); 24] = [
        ((1, 3), (1, 3)),
        ((1, 5), (1, 5)),
        ((1, 6), (1, 6)),
        ((1, 7), (1, 7)),
        ((1, 9), (1, 9)),
        ((1, 20), (1, 20)),
        ((2, 2), (2, 2)),
        ((2, 4), (2, 4)),
        ((2, 5), (2, 5)),
        ((2, 6), (2, 6)),
        ((2, 7), (2, 7)),
        ((3, 3), (3, 3)),
        ((3, 5), (3, 5)),
        ((3, 8), (3, 8)),
        ((3, 2), (1, 4)),
        ((1, 4), (3, 2)),
        ((2, 3), (1, 9)),
        ((1, 9), (2, 3)),
        ((1, 2), (1, 8)),
        ((1, 8), (1, 2)),
        ((1, 2), (4, 5)),
        ((4, 5), (1, 2)),
        ((2, 6), (3, 4)),
        ((1, 13), (2, 2)),
    ];

    /// The steps from tick to tick, held to all rows that there are: the same least energy, and the
    /// same row, which is the only one of those that moves least. Moving costs less than work, as much
    /// and more. How often the tie decides, and the patterns.
    fn check_all(round: bool) -> (u64, u64) {
        let (mut patterns, mut ties) = (0, 0);
        for length in 1..=7 {
            let all: Vec<Vec<u8>> = words(length).collect();
            for (shut, wake) in MOVES {
                let one = |(ticks, power): (u32, u32)| Move { ticks, power };
                let device = Device {
                    shut: one(shut),
                    wake: one(wake),
                    ..Device::averaged(1, 5, 1, 3)
                };
                let unused = vec![false; length as usize];
                let legal = |row: &Vec<u8>| {
                    if round {
                        is_legal_for_ever(row, &device, &unused)
                    } else {
                        is_legal(row, &device, &unused)
                    }
                };
                let rows: Vec<Vec<u8>> = all.iter().filter(|row| legal(row)).cloned().collect();
                for pattern in 0..1 << length {
                    ties += check_pattern(round, &device, pattern, &rows, length);
                    patterns += 1;
                }
            }
        }
        (ties, patterns)
    }

    #[test]
    fn the_row_given_is_the_only_one_of_least_energy_that_moves_least() {
        assert_eq!(check_all(false), (492, 6_096));
    }

    #[test]
    fn so_it_is_where_the_row_is_repeated_for_ever() {
        assert_eq!(check_all(true), (485, 6_096));
    }

    /// A legal row, with a bit for each tick that is not W.
    struct Laid {
        row: Vec<u8>,
        idle: u32,
        rank: (u64, usize),
    }

    /// All legal rows of a device with levels from work to work, laid out block by block: a tick at the
    /// level where it is, or a whole move to the next one, down or up. After it came up to work it works.
    fn lay_out(
        device: &Device,
        length: usize,
        row: &mut Vec<u8>,
        level: usize,
        all: &mut Vec<Laid>,
    ) {
        let levels = device.levels.len();
        if row.len() >= length {
            if row.len() == length && level == 0 {
                let ticks = row.iter().enumerate();
                all.push(Laid {
                    row: row.clone(),
                    idle: ticks.fold(0, |idle, (tick, &letter)| {
                        idle | u32::from(letter != b'W') << tick
                    }),
                    rank: (energy(row, device), moves(row)),
                });
            }
            return;
        }
        let mut blocks = vec![(device.letter_at(level), 1, level)];
        if level > 0 {
            blocks.push(('U', device.wake.ticks, level - 1));
        }
        if level < levels && !(level == 0 && row.last() == Some(&b'U')) {
            blocks.push(('D', device.shut.ticks, level + 1));
        }
        for (letter, ticks, level) in blocks {
            let before = row.len();
            row.extend(vec![letter as u8; ticks as usize]);
            lay_out(device, length, row, level, all);
            row.truncate(before);
        }
    }

    /// Holds the row given for a pattern to all rows laid out, in a round from its first use on. One if the
    /// tie decides.
    fn check_laid(round: bool, device: &Device, pattern: u32, all: &[Laid], length: u32) -> u64 {
        let used = |tick: &u32| pattern >> tick & 1 == 1;
        let uses: Vec<Use> = (0..length)
            .filter(used)
            .map(|tick| (tick, tick + 1))
            .collect();
        let first = if round { pattern.trailing_zeros() } else { 0 };
        let turned = pattern >> first | (pattern << (length - first)) & ((1 << length) - 1);
        let legal = all.iter().filter(|laid| laid.idle & turned == 0);
        let least = legal.clone().map(|laid| laid.rank.0).min().unwrap();
        let mut cheapest: Vec<&Laid> = legal.filter(|laid| laid.rank.0 == least).collect();
        cheapest.sort_by_key(|laid| laid.rank);
        let mut given = row_given(round, device, &uses, length).into_bytes();
        given.rotate_left(first as usize);
        assert_eq!(ways_of(round, device, &uses, length).energy, least);
        assert_eq!(given, cheapest[0].row);
        assert!(cheapest.len() == 1 || cheapest[0].rank < cheapest[1].rank);
        let is_tied = cheapest.last().unwrap().rank > cheapest[0].rank;
        assert_eq!(super::is_tied(round, device, &uses, length), is_tied);
        u64::from(is_tied)
    }

    /// T, Pw, P0 and the powers of the levels: moves cheaper than work and dearer, gaps that cost the same
    /// at two levels and at three, levels that are never worth the way.
    const SENSORS: [(u32, u32, u32, &[u32]); 10] = [
        (1, 20, 9, &[8, 6, 4, 2]),
        (1, 10, 4, &[3, 1]),
        (1, 10, 5, &[4, 3, 2, 1]),
        (1, 9, 9, &[3, 2, 1]),
        (1, 6, 8, &[3, 0]),
        (1, 5, 12, &[4, 0]),
        (1, 30, 5, &[4, 2, 0]),
        (1, 8, 7, &[6, 5, 1]),
        (2, 9, 4, &[3, 1]),
        (2, 12, 20, &[9, 1]),
    ];

    /// How often the tie decides, and the patterns.
    fn check_levels(round: bool) -> (u64, u64) {
        let (mut patterns, mut ties) = (0, 0);
        for (transition, working, moving, levels) in SENSORS {
            let device = Device {
                levels: levels.to_vec(),
                numbered: true,
                ..Device::averaged(transition, working, 0, moving)
            };
            for length in 1..=10 {
                let mut all = Vec::new();
                let mut row = vec![b'W'; usize::from(round)];
                lay_out(&device, length as usize, &mut row, 0, &mut all);
                // A round begins with its first use here, so that it has one.
                for pattern in u32::from(round)..1 << length {
                    ties += check_laid(round, &device, pattern, &all, length);
                    patterns += 1;
                }
            }
        }
        (ties, patterns)
    }

    #[test]
    fn of_several_levels_it_is_the_only_one_too() {
        assert_eq!(check_levels(false), (1_487, 20_460));
    }

    #[test]
    fn so_it_is_in_a_round() {
        assert_eq!(check_levels(true), (1_580, 20_360));
    }
}
