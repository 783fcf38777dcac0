//! Words of 32 bits, their files, and the limits of the layouts.

/// The mark for no limit, and for a rule without trigger.
pub const N: u32 = u32::MAX;
/// The last tick.
pub const LAST: u32 = 1_000_000_000;
/// Most words of a book, a sheet or a plan.
pub const MOST_WORDS: usize = 16_384;

pub const MOST_TIMELINES: usize = 16;
pub const MOST_VALUES: usize = 32;
pub const MOST_RULES: usize = 64;
/// Most alternatives of one rule, and of all.
pub const MOST_WAYS: usize = 64;
pub const MOST_WAYS_IN_ALL: usize = 1_024;
/// Most names of one alternative, and of all.
pub const MOST_NAMES: usize = 4;
pub const MOST_NAMES_IN_ALL: usize = 2_048;
/// Most atoms or constraints of all alternatives.
pub const MOST_ASKS_IN_ALL: usize = 2_048;
/// Most tokens of one timeline.
pub const MOST_TOKENS: usize = 512;

/// The words of a file, little-endian; none if a byte is left over.
pub fn from_bytes(bytes: &[u8]) -> Option<Vec<u32>> {
    let chunks = bytes.chunks_exact(4);
    if !chunks.remainder().is_empty() {
        return None;
    }
    Some(chunks.map(|c| u32::from_le_bytes([c[0], c[1], c[2], c[3]])).collect())
}

pub fn to_bytes(words: &[u32]) -> Vec<u8> {
    words.iter().flat_map(|w| w.to_le_bytes()).collect()
}
