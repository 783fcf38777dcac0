//! The reader over one timeline of a plan.

use crate::layout::LAST;
use crate::plan::width;

#[derive(Clone, Copy, Debug, PartialEq, Eq)]
pub struct Position {
    pub line: u32,
    pub token: u32,
    pub start: u32,
}

/// A token as the reader hands it out.
#[derive(Clone, Copy, Debug, PartialEq, Eq)]
pub struct Seen {
    pub value: u32,
    pub start: u32,
    pub end: u32,
    pub job: u32,
}

/// The token at a position and the next position. None is "no more"; the
/// position then stays. The words may be any words, so all sums are in 64 bits.
pub fn step(plan: &[u32], at: Position) -> Option<(Seen, Position)> {
    let word = |index: u64| plan.get(usize::try_from(index).ok()?).copied().map(u64::from);
    let (line, token) = (u64::from(at.line), u64::from(at.token));
    let lines = word(2)?;
    if line >= lines {
        return None;
    }
    let first = word(3 + 2 * line)?;
    let count = word(4 + 2 * line)?;
    if token >= count {
        return None;
    }
    // A step reads the words as they stand: an edition that no plan has is read
    // as the first.
    let width = word(0).and_then(|edition| width(edition as u32)).unwrap_or(2) as u64;
    let place = 3 + 2 * lines + width * (first + token);
    let value = word(place)?;
    let job = if width == 3 { word(place + 2)? } else { 0 };
    let end = u64::from(at.start) + word(place + 1)?;
    if end > u64::from(LAST) {
        return None;
    }
    let (value, end, job) = (value as u32, end as u32, job as u32);
    // The token is below a count of 32 bits, so its next fits.
    let next = Position { token: at.token + 1, start: end, ..at };
    Some((Seen { value, start: at.start, end, job }, next))
}
