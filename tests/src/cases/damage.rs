//! Damage done to a file's bytes without knowing what they mean.

use crate::cases::random::Random;

pub fn cut_short(random: &mut Random, mut file: Vec<u8>) -> Vec<u8> {
    file.truncate(random.index(file.len()));
    file
}

/// One to three bytes get another value: any, a near one, or one bit turned.
pub fn change(random: &mut Random, mut file: Vec<u8>) -> Vec<u8> {
    for _ in 0..random.within(1, 3) {
        let place = random.index(file.len());
        let byte = file[place];
        file[place] = match random.within(1, 4) {
            1 => random.u8(0, 255),
            2 => byte.wrapping_add(1),
            3 => byte.wrapping_sub(1),
            _ => byte ^ 1 << random.within(0, 7),
        };
    }
    file
}

/// A few bytes more, after the end or somewhere before it.
pub fn add(random: &mut Random, mut file: Vec<u8>) -> Vec<u8> {
    let place = if random.one_in(2) {
        file.len()
    } else {
        random.index(file.len() + 1)
    };
    for _ in 0..random.within(1, 8) {
        file.insert(place, random.u8(0, 255));
    }
    file
}

/// Bytes that were never a file. Half of them are small numbers, which get farther into the reader.
pub fn noise(random: &mut Random, longest: u64) -> Vec<u8> {
    let length = random.within(0, longest) as usize;
    let most = random.pick(&[1, 8, 255]);
    (0..length).map(|_| random.u8(0, most)).collect()
}

/// Far more bytes than any accepted file has, sometimes more than a pipe holds.
pub fn lengthen(random: &mut Random, mut file: Vec<u8>) -> Vec<u8> {
    let more = if random.one_in(12) {
        random.within(70_000, 200_000)
    } else {
        random.within(201, 6_000)
    };
    file.extend(random.bytes(more as usize));
    file
}
