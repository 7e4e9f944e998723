//! What the tests of a door that is held to a listing share: buffers that are longer than what may
//! be written, and the numbers that came.

use crate::expected::SHUT;
use std::collections::BTreeMap;

/// What lies in a buffer where nothing may be written.
pub const BLANK: u8 = 0xA5;

pub fn longer(bytes: &[u8], by: usize) -> Vec<u8> {
    [bytes, &vec![BLANK; by]].concat()
}

/// Hands the front back. What follows it must be as it was.
pub fn hand_back(front: &mut [u8], whole: &[u8]) {
    let (written, kept) = whole.split_at(front.len());
    assert!(
        is_blank(kept),
        "a door writes past what it may: {whole:02X?}"
    );
    front.copy_from_slice(written);
}

pub fn is_blank(bytes: &[u8]) -> bool {
    bytes.iter().all(|&byte| byte == BLANK)
}

/// How often each number came; the door was shut so many times besides.
pub fn met(came: [u64; 27], shut: u64) -> BTreeMap<u8, u64> {
    let came = (0..).zip(came).chain([(SHUT, shut)]);
    came.filter(|&(_, count)| count > 0).collect()
}
