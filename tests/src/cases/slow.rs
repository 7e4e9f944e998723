//! Files in pieces: the program has read the first piece, and waits, before the second is there.

use crate::cases::second::Second;
use crate::cases::tables::{device_a, job, task, Tables};
use crate::cases::third::{Levels, Third};
use crate::oracle::expect::{search, text, BUDGET};
use crate::running::runner::Feed;

/// Each of them has another answer than its first piece alone.
pub struct Slow {
    pub name: &'static str,
    pub file: Vec<u8>,
    pub pieces: Vec<usize>,
}

impl Slow {
    pub fn feed(&self) -> Feed<'_> {
        Feed {
            file: &self.file,
            pieces: self.pieces.clone(),
        }
    }

    pub fn expected(&self) -> String {
        text(&search(&self.file, BUDGET))
    }
}

fn listed() -> Vec<u8> {
    Tables {
        horizon: 5,
        devices: vec![device_a()],
        tasks: Vec::new(),
        jobs: vec![job(0, 5, 2, 1)],
    }
    .bytes()
}

fn periodic() -> Vec<u8> {
    Tables {
        devices: vec![device_a()],
        tasks: vec![task(4, 1, 1), task(6, 2, 0)],
        ..Tables::default()
    }
    .bytes()
}

/// As long as an accepted file can be: 8 devices, no task, 16 jobs.
fn longest() -> Tables {
    Tables {
        horizon: 16,
        devices: vec![device_a(); 8],
        tasks: Vec::new(),
        jobs: (0..16).map(|n| job(n, n + 1, 1, 1 << (n % 8))).collect(),
    }
}

/// With four levels each.
fn deepest() -> Vec<u8> {
    let mut third = Third::single(longest());
    for (device, levels) in third.tables.devices.iter_mut().zip(&mut third.levels) {
        (device.working, device.moving) = (9, 7);
        *levels = Levels::of(&[4, 3, 2, 1]);
    }
    third.bytes()
}

fn with_a_tail() -> Vec<u8> {
    let mut file = listed();
    file.push(0);
    file
}

pub fn all() -> Vec<Slow> {
    let slow = |name, file: Vec<u8>, first: &[usize]| {
        let mut pieces = first.to_vec();
        pieces.push(file.len() - first.iter().sum::<usize>());
        Slow { name, file, pieces }
    };
    vec![
        slow("the first byte alone", listed(), &[1]),
        slow("all but the last byte", listed(), &[18]),
        slow("a piece a section", periodic(), &[2, 8, 11]),
        slow("the longest of the first kind", longest().bytes(), &[100]),
        slow(
            "the longest of the second kind",
            Second::alike(longest()).bytes(),
            &[100, 98],
        ),
        slow("the longest accepted file", deepest(), &[100, 99, 31]),
        slow(
            "a byte after the longest",
            [deepest(), vec![0]].concat(),
            &[231],
        ),
        slow("a byte after the last section", with_a_tail(), &[19]),
    ]
}

#[cfg(test)]
mod tests {
    use super::*;

    /// Else a program that stops after its first read would pass.
    #[test]
    fn the_first_piece_alone_has_another_answer() {
        for slow in all() {
            let first = &slow.file[..slow.pieces[0]];
            assert_ne!(
                text(&search(first, BUDGET)),
                slow.expected(),
                "{}",
                slow.name
            );
            assert_eq!(slow.pieces.iter().sum::<usize>(), slow.file.len());
        }
        assert_eq!(longest().bytes().len(), 173);
        assert_eq!(deepest().len(), 231);
    }
}
