//! Spoils words, one at a time or by cutting and stretching.

use super::rng::Rng;
use crate::layout::{LAST, N};

/// Limits, the words next to them, and the words at the ends.
#[rustfmt::skip] // one line each would be long
const EDGES: [u32; 42] = [
    0, 1, 2, 3, 4, 5, 7, 8, 9, 12, 13, 14, 15, 16, 17, 31, 32, 33, 63, 64, 65, 511, 512, 513, 1023,
    1024, 1025, 2047, 2048, 2049, 8191, 8192, 16_383, 16_384, 16_385, LAST - 1, LAST, LAST + 1,
    0x7FFF_FFFF, 0x8000_0000, N - 1, N,
];

/// Words to put in the place of one.
pub fn edges(old: u32) -> Vec<u32> {
    let mut list = EDGES.to_vec();
    for near in [old.wrapping_sub(1), old.wrapping_add(1), old ^ 0x8000_0000, old.wrapping_mul(2)] {
        list.push(near);
    }
    list
}

pub fn edge(rng: &mut Rng, old: u32) -> u32 {
    match rng.below(10) {
        0..=2 => old.wrapping_add(1),
        3..=4 => old.wrapping_sub(1),
        5 => old ^ 1 << rng.below(32),
        6 => rng.word(),
        _ => rng.pick(&EDGES),
    }
}

/// One word replaced; more of them now and then.
pub fn words(rng: &mut Rng, words: &mut [u32]) {
    if words.is_empty() {
        return;
    }
    loop {
        let at = rng.index(words.len());
        words[at] = match rng.percent(15) {
            true => words[rng.index(words.len())],
            false => edge(rng, words[at]),
        };
        if rng.percent(85) {
            return;
        }
    }
}

/// Makes the slice shorter or longer; the total often follows, so that the
/// checks after it are reached.
pub fn stretch(rng: &mut Rng, words: &mut Vec<u32>) {
    let some = 1 + rng.index(4);
    match rng.below(8) {
        0 => words.truncate(words.len().saturating_sub(some)),
        1 => words.truncate(rng.index(words.len() + 1)),
        2 => (0..some).for_each(|_| words.push(edge(rng, 0))),
        3 if !words.is_empty() => {
            let at = rng.index(words.len());
            words.remove(at);
        }
        4 => words.insert(rng.index(words.len() + 1), edge(rng, 0)),
        5 => words.truncate(rng.pick(&[0, 1, 2, 3, 7, 13, 14, 15])),
        6 => words.resize(rng.pick(&[13, 14, 15, 16_383, 16_384, 16_385, 20_000]), 0),
        _ => {
            let again = words.clone();
            words.extend(again);
        }
    }
    if words.len() > 1 && rng.percent(70) {
        words[1] = words.len() as u32;
    }
}

/// Bytes that aren't whole words, or too many of them.
pub fn bytes(rng: &mut Rng, bytes: &mut Vec<u8>) {
    match rng.below(4) {
        0 => bytes.truncate(bytes.len().saturating_sub(1 + rng.index(3))),
        1 => bytes.resize(bytes.len() + 1 + rng.index(3), 0),
        2 => bytes.resize(rng.pick(&[65_532, 65_535, 65_536, 65_537, 65_540]), 0),
        _ => bytes.resize(rng.pick(&[0, 1, 2, 3, 4, 55, 56, 57]), 0),
    }
}
