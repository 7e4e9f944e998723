//! A small pseudo random generator (splitmix64): the same seed gives the same cases everywhere.

use std::sync::atomic::{AtomicU64, Ordering};

/// What is added to every seed: a program that is told a seed draws all its cases anew.
static ADDED: AtomicU64 = AtomicU64::new(0);

/// To be called once, before anything is drawn.
pub fn add_to_seeds(more: u64) {
    ADDED.store(more, Ordering::Relaxed);
}

pub struct Random {
    state: u64,
}

impl Random {
    /// Each stream of a seed is a sequence of its own, so that a case depends on its own number
    /// only, and not on the cases before it or on which thread draws it.
    pub fn new(seed: u64, stream: u64) -> Random {
        let state = seed.wrapping_add(ADDED.load(Ordering::Relaxed));
        let mut random = Random { state };
        random.state = random.draw() ^ stream.wrapping_mul(0xD1B5_4A32_D192_ED03);
        random
    }

    fn draw(&mut self) -> u64 {
        self.state = self.state.wrapping_add(0x9E37_79B9_7F4A_7C15);
        let mut mixed = self.state;
        mixed = (mixed ^ (mixed >> 30)).wrapping_mul(0xBF58_476D_1CE4_E5B9);
        mixed = (mixed ^ (mixed >> 27)).wrapping_mul(0x94D0_49BB_1331_11EB);
        mixed ^ (mixed >> 31)
    }

    /// A number from `from` to `to`, both included.
    pub fn within(&mut self, from: u64, to: u64) -> u64 {
        from + self.draw() % (to - from + 1)
    }

    pub fn u8(&mut self, from: u8, to: u8) -> u8 {
        self.within(from.into(), to.into()) as u8
    }

    pub fn u16(&mut self, from: u16, to: u16) -> u16 {
        self.within(from.into(), to.into()) as u16
    }

    pub fn index(&mut self, length: usize) -> usize {
        self.within(0, length as u64 - 1) as usize
    }

    pub fn one_in(&mut self, many: u64) -> bool {
        self.within(1, many) == 1
    }

    pub fn pick<T: Copy>(&mut self, choices: &[T]) -> T {
        choices[self.index(choices.len())]
    }

    pub fn bytes(&mut self, length: usize) -> Vec<u8> {
        (0..length).map(|_| self.u8(0, 255)).collect()
    }
}
