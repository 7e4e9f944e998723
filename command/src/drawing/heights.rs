//! How high a device stands, tick by tick: by the powers of its levels, and in between on its way.

use super::Run;
use crate::kinds::Kind;

/// A level stands at least so much above the next deeper one, and below work, that they can be told apart.
const STEP: f64 = 0.09;

/// The heights of work and of each level, down to the deepest.
fn levels(kind: &Kind, record: &[u8]) -> Option<Vec<f64>> {
    let letters = kind.levels(record);
    let deepest = kind.power(record, *letters.last()?)?;
    let range = kind.power(record, b'W')?.saturating_sub(deepest).max(1);
    let mut heights = vec![0.0];
    for (level, &letter) in letters.iter().enumerate().rev().skip(1) {
        let power = kind.power(record, letter)?.saturating_sub(deepest);
        let (least, most) = (heights.last()? + STEP, 1.0 - STEP * (level as f64 + 1.0));
        let height = f64::from(power) / f64::from(range);
        heights.push(height.min(most).max(least));
    }
    heights.push(1.0);
    heights.reverse();
    Some(heights)
}

/// How deep the device is before each tick, in levels, and after the last. Between two that work each
/// tick of a move takes it a part of a level on; where the row begins asleep, as that of a round may, it
/// begins as it ends.
fn depths(kind: &Kind, record: &[u8], row: &[u8]) -> Option<Vec<f64>> {
    let letters = kind.levels(record);
    let down = f64::from(kind.ticks_of(record, b'D')?);
    let up = f64::from(kind.ticks_of(record, b'U')?);
    let after = |depth: f64, letter: u8| match letter {
        b'W' => Some(0.0),
        b'D' => Some(depth + 1.0 / down),
        b'U' => Some(depth - 1.0 / up),
        _ => {
            let level = letters.iter().position(|&known| known == letter)?;
            Some(level as f64 + 1.0)
        }
    };
    let begin = row
        .iter()
        .try_fold(0.0, |depth, &letter| after(depth, letter))?;
    let mut depths = vec![begin];
    for &letter in row {
        depths.push(after(*depths.last()?, letter)?);
    }
    Some(depths)
}

/// Between two levels the height goes in a line from one to the other.
fn height(levels: &[f64], depth: f64) -> f64 {
    let deepest = levels.len() - 1;
    let depth = depth.clamp(0.0, deepest as f64);
    let above = (depth.floor() as usize).min(deepest);
    let below = (above + 1).min(deepest);
    let part = depth - above as f64;
    levels[above] + (levels[below] - levels[above]) * part
}

/// The runs of a row, each with the heights between which it goes.
pub fn runs(kind: &Kind, record: &[u8], row: &[u8]) -> Option<Vec<Run>> {
    let levels = levels(kind, record)?;
    let depths = depths(kind, record, row)?;
    let mut at = 0;
    let pieces = row.chunk_by(|one, next| one == next);
    let run = |piece: &[u8]| {
        let from = at;
        at += piece.len();
        Run {
            letter: piece[0],
            ticks: (from, at),
            from: height(&levels, depths[from]),
            to: height(&levels, depths[at]),
        }
    };
    Some(pieces.map(run).collect())
}

#[cfg(test)]
mod tests {
    use super::*;
    use crate::kinds::{FIRST, SECOND, THIRD};

    const A: [u8; 7] = [1, 0, 5, 0, 1, 0, 3];

    /// T 1, Pw 10, P0 4 and levels of the powers 3 and 1.
    const SENSOR: [u8; 10] = [1, 0, 10, 0, 4, 2, 0, 3, 0, 1];

    /// The heights at the ends of each run, in hundredths.
    fn ends(kind: &Kind, record: &[u8], row: &str) -> Vec<(u32, u32)> {
        let hundredths = |part: f64| (100.0 * part).round() as u32;
        let runs = runs(kind, record, row.as_bytes()).unwrap();
        runs.iter()
            .map(|run| (hundredths(run.from), hundredths(run.to)))
            .collect()
    }

    #[test]
    fn a_device_with_one_level_is_high_or_low() {
        let expected = [(100, 100), (100, 0), (0, 0), (0, 100)];
        assert_eq!(ends(&FIRST, &A, "WWDSU"), expected);
        let apart = [1, 3, 0, 9, 0, 1, 0, 4, 0, 2];
        assert_eq!(ends(&SECOND, &apart, "WDDDSU"), expected);
    }

    #[test]
    fn levels_stand_by_their_powers() {
        let expected = [(100, 22), (22, 22), (22, 100)];
        assert_eq!(ends(&THIRD, &SENSOR, "D111U"), expected);
        let expected = [(100, 0), (0, 0), (0, 100), (100, 100)];
        assert_eq!(ends(&THIRD, &SENSOR, "DD22UUW"), expected);
        // It turns at a level without a stay.
        assert_eq!(ends(&THIRD, &SENSOR, "DU"), [(100, 22), (22, 100)]);
    }

    #[test]
    fn a_move_goes_on_over_the_seam() {
        let expected = [(22, 100), (100, 100), (100, 0), (0, 0), (0, 22)];
        assert_eq!(ends(&THIRD, &SENSOR, "UWWDD22U"), expected);
        let mut slow = A;
        slow[0] = 2;
        let expected = [(50, 100), (100, 100), (100, 0), (0, 50)];
        assert_eq!(ends(&FIRST, &slow, "UWWDDU"), expected);
        assert_eq!(ends(&THIRD, &SENSOR, "2222"), [(0, 0)]);
    }

    /// Powers that are nearly those of work, or nearly the deepest level's.
    #[test]
    fn levels_are_told_apart() {
        for powers in [[99, 98, 97, 0], [3, 2, 1, 0]] {
            let mut record = vec![1, 0, 100, 0, 100, 4];
            record.extend(powers.iter().flat_map(|&power: &u16| power.to_be_bytes()));
            let heights = levels(&THIRD, &record).unwrap();
            assert_eq!((heights[0], heights[4]), (1.0, 0.0));
            let apart = |pair: &[f64]| pair[0] - pair[1] > STEP - 1e-9;
            assert!(heights.windows(2).all(apart), "{heights:?}");
        }
    }
}
