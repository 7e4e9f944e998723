//! What the run has met, and where the program and the oracle part.

use crate::cases::Kind;
use crate::oracle::listing::uses;
use crate::oracle::request::{Request, MOST_LEVELS};
use crate::oracle::rows::{is_tied, row_given};
use std::cmp::Ordering;
use std::collections::BTreeMap;
use std::fmt::Write;

/// The refusals that a search on a file can give. 0 is added to them below.
const REFUSALS: [u8; 16] = [1, 2, 3, 4, 5, 6, 7, 8, 9, 10, 11, 12, 13, 19, 20, 26];

const MOVING: [(Ordering, &str); 3] = [
    (Ordering::Less, "less than work"),
    (Ordering::Equal, "as much"),
    (Ordering::Greater, "more"),
];

#[derive(Default)]
pub struct Tally {
    kinds: BTreeMap<Kind, u64>,
    outcomes: BTreeMap<u8, u64>,
    in_pieces: u64,
    pub rows: Rows,
}

/// The rows that were met.
#[derive(Default)]
pub struct Rows {
    /// By whether moving costs less than work, as much, or more.
    moving: BTreeMap<Ordering, u64>,
    /// Those of them in which the tie decides.
    ties: u64,
    /// Those of a device whose two moves are not alike.
    apart: u64,
    /// Those of devices with several levels in which the tie decides, and all of them by the deepest level
    /// at which they stay.
    level_ties: u64,
    depths: [u64; MOST_LEVELS as usize + 1],
    /// Of rounds: in which the tie decides, that are not at work at the seam, and that have no use.
    round_ties: u64,
    over_the_seam: u64,
    unused: u64,
}

impl Rows {
    pub fn add(&mut self, request: &Request, starts: &[u32]) {
        for (number, device) in request.devices.iter().enumerate() {
            let uses = uses(request, starts, number);
            for one in [device.shut, device.wake] {
                let moving = one.power.cmp(&device.working);
                *self.moving.entry(moving).or_default() += 1;
            }
            self.apart += u64::from(device.shut != device.wake);
            let tied = u64::from(is_tied(request.round, device, &uses, request.horizon));
            self.ties += tied;
            let row = row_given(request.round, device, &uses, request.horizon);
            if device.levels.len() > 1 {
                let level = |letter: char| letter.to_digit(10).unwrap_or(0);
                let deepest = row.chars().map(level).max().unwrap_or(0);
                self.depths[deepest as usize] += 1;
                self.level_ties += tied;
            }
            if request.round {
                let is_over = !uses.is_empty() && !row.starts_with(['W', 'D']);
                self.round_ties += tied;
                self.unused += u64::from(uses.is_empty());
                self.over_the_seam += u64::from(is_over);
            }
        }
    }

    /// The same of rounds.
    pub fn rounds_never_met(&self) -> Vec<String> {
        let met = [
            (self.round_ties, "a tie in a round"),
            (self.over_the_seam, "a row asleep over the seam"),
            (self.unused, "a device that a round never uses"),
        ];
        let missed = met.iter().filter(|(count, _)| *count == 0);
        missed.map(|(_, name)| name.to_string()).collect()
    }

    /// The same of devices with several levels.
    pub fn levels_never_met(&self) -> Vec<String> {
        let depths = self.depths.iter().enumerate();
        let missed = depths.filter(|(_, count)| **count == 0);
        let mut missed: Vec<String> = missed
            .map(|(level, _)| format!("a row that stays at level {level} at most"))
            .collect();
        if self.level_ties == 0 {
            missed.push("a tie of levels".to_string());
        }
        missed
    }

    pub fn never_met(&self) -> Vec<String> {
        let is_missed = |(moving, _): &&(Ordering, &str)| !self.moving.contains_key(moving);
        let missed = MOVING.iter().filter(is_missed);
        let mut missed: Vec<String> = missed
            .map(|(_, name)| format!("moving costs {name}"))
            .collect();
        if self.ties == 0 {
            missed.push("a tie".to_string());
        }
        if self.apart == 0 {
            missed.push("moves apart".to_string());
        }
        missed
    }

    pub fn report(&self) -> String {
        let mut text = String::from("moves of rows that cost, against work:\n");
        for (moving, name) in MOVING {
            let count = self.moving.get(&moving).copied().unwrap_or_default();
            text += &format!("{count:7}  {name}\n");
        }
        text += &format!("rows in which the tie decides: {}\n", self.ties);
        text += &format!("rows of devices whose moves differ: {}\n", self.apart);
        text += &format!(
            "rows of devices with several levels in which it decides: {}, by the deepest at which they stay: {:?}\n",
            self.level_ties, self.depths
        );
        text + &format!(
            "rows of rounds in which it decides: {}, asleep over the seam: {}, without a use: {}\n",
            self.round_ties, self.over_the_seam, self.unused
        )
    }
}

impl Tally {
    pub fn add(&mut self, kind: Kind, number: u8, pieces: usize) {
        *self.kinds.entry(kind).or_default() += 1;
        *self.outcomes.entry(number).or_default() += 1;
        self.in_pieces += u64::from(pieces > 1);
    }

    /// Numbers, kinds of devices and ties that no case has met. A run that misses one has not tested
    /// it.
    pub fn never_met(&self) -> Vec<String> {
        let mut numbers = vec![0];
        numbers.extend(REFUSALS);
        numbers.retain(|number| !self.outcomes.contains_key(number));
        let mut missed: Vec<String> = numbers.iter().map(u8::to_string).collect();
        missed.extend(self.rows.never_met());
        missed.extend(self.rows.rounds_never_met());
        missed.extend(self.rows.levels_never_met());
        missed
    }

    pub fn report(&self) -> String {
        let mut text = String::from("random cases by kind:\n");
        for (kind, count) in &self.kinds {
            text += &format!("{count:7}  {}\n", kind.name());
        }
        text += "random cases by outcome:\n";
        for (number, count) in &self.outcomes {
            let said = if *number == 0 { "a plan" } else { "refused" };
            text += &format!("{count:7}  {number:2} {said}\n");
        }
        text += &format!("random cases fed in pieces: {}\n", self.in_pieces);
        text + &self.rows.report()
    }
}

pub struct Mismatch {
    pub name: String,
    pub file: Vec<u8>,
    pub expected: String,
    pub got: Result<Vec<u8>, String>,
}

impl Mismatch {
    pub fn report(&self) -> String {
        let got = match &self.got {
            Ok(output) => format!("{:?}", String::from_utf8_lossy(output)),
            Err(fault) => format!("a failure: {fault}"),
        };
        format!(
            "MISMATCH in {}\n  file of {} bytes: {}\n  expected {:?}\n  got      {got}\n",
            self.name,
            self.file.len(),
            hex(&self.file),
            self.expected
        )
    }
}

/// Two digits a byte; the tail of a very long file says nothing more.
fn hex(file: &[u8]) -> String {
    const SHOWN: usize = 400;
    let mut text = String::new();
    for byte in file.iter().take(SHOWN) {
        let _ = write!(text, "{byte:02X} ");
    }
    if file.len() > SHOWN {
        text += "...";
    }
    text.trim_end().to_string()
}

#[cfg(test)]
mod tests {
    use super::*;
    use crate::oracle::request::{Device, Job};

    /// A device that is not used, for 2 ticks: slept at 3, worked through at 5 and at 9, and at 5 both
    /// cost 10.
    fn alone(moving: u32) -> Request {
        Request {
            horizon: 2,
            round: false,
            devices: vec![Device::averaged(1, 5, 1, moving)],
            tasks: 0,
            jobs: Vec::new(),
        }
    }

    #[test]
    fn what_was_not_met_is_missed() {
        let mut tally = Tally::default();
        for number in (0..=13).chain([20, 26]) {
            tally.add(Kind::Jobs, number, 1);
        }
        for moving in [3, 9] {
            tally.rows.add(&alone(moving), &[]);
        }
        let rounds = tally.rows.rounds_never_met();
        assert_eq!(rounds.len(), 3);
        let levels = tally.rows.levels_never_met();
        assert_eq!(levels.len(), 6);
        let missed = [
            &["19", "moving costs as much", "a tie", "moves apart"].map(String::from),
            &rounds[..],
            &levels[..],
        ];
        assert_eq!(tally.never_met(), missed.concat());
        tally.add(Kind::Tight, 19, 2);
        tally.rows.add(&alone(5), &[]);
        let mut apart = alone(9);
        apart.devices[0].wake.power = 3;
        tally.rows.add(&apart, &[]);
        assert_eq!(tally.never_met(), [rounds, levels].concat());
    }

    /// A round of four ticks with one use of two, or with none. Two ticks of moves cost as much as work.
    fn round(devices: u8, moving: u32) -> Request {
        let job = Job {
            release: 0,
            deadline: 4,
            running: 2,
            devices,
        };
        Request {
            horizon: 4,
            round: true,
            tasks: 1,
            jobs: vec![job],
            ..alone(moving)
        }
    }

    #[test]
    fn so_are_rows_of_rounds() {
        let mut rows = Rows::default();
        rows.add(&round(1, 3), &[0]);
        assert_eq!(rows.rounds_never_met().len(), 3);
        rows.add(&round(1, 3), &[1]);
        rows.add(&round(0, 3), &[0]);
        assert_eq!(rows.rounds_never_met(), ["a tie in a round"]);
        rows.add(&round(1, 5), &[1]);
        assert!(rows.rounds_never_met().is_empty());
    }

    /// A device of four levels alone: the longer it has, the deeper it goes. In five ticks the first two
    /// levels cost the same.
    #[test]
    fn so_are_levels() {
        let mut rows = Rows::default();
        let mut add = |horizon| {
            let mut request = alone(9);
            request.horizon = horizon;
            request.devices[0].working = 20;
            request.devices[0].levels = vec![8, 6, 4, 2];
            request.devices[0].numbered = true;
            rows.add(&request, &[]);
            rows.levels_never_met()
        };
        for (horizon, missed) in [(1, 5), (4, 4), (7, 3), (11, 2), (14, 1)] {
            assert_eq!(add(horizon).len(), missed, "{horizon}");
        }
        assert!(add(5).is_empty());
    }

    #[test]
    fn a_mismatch_shows_the_file_and_both_texts() {
        let mismatch = Mismatch {
            name: "case 3".to_string(),
            file: vec![0, 255],
            expected: "refused 1\n".to_string(),
            got: Ok(b"refused 2\n".to_vec()),
        };
        let report = mismatch.report();
        for part in ["case 3", "00 FF", "refused 1", "refused 2"] {
            assert!(report.contains(part), "{part}");
        }
    }
}
