//! Files are little-endian words.

/// The most bytes a file may have.
pub const MAX_BYTES: usize = 65_536;

/// The words of a file, or none at all when its length is out of bounds. No
/// words then gives fault 1 or 5, as a missing file does.
pub fn from_bytes(bytes: &[u8]) -> Vec<u32> {
    let words = bytes.chunks_exact(4);
    if bytes.len() > MAX_BYTES || !words.remainder().is_empty() {
        return Vec::new();
    }
    words.map(|c| u32::from_le_bytes([c[0], c[1], c[2], c[3]])).collect()
}

pub fn to_bytes(words: &[u32]) -> Vec<u8> {
    words.iter().flat_map(|w| w.to_le_bytes()).collect()
}
