//! A plan as tokens with start, end and job, gathered by value.

use crate::decode::{Book, Value};
use crate::layout::{Answer, LAST, MAX_TOKENS, MAX_WORDS, N};
use crate::placed::Span;

/// The tokens of each value, in the order of their line, and where all lines end.
pub struct Tokens {
    spans: Vec<Span>,
    first: Vec<usize>,
    pub end: u32,
}

impl Tokens {
    /// `value` is the record of a value, which stands for its variable too.
    pub fn of(&self, value: usize) -> &[Span] {
        &self.spans[self.first[value]..self.first[value + 1]]
    }

    /// The tokens of all values.
    pub fn all(&self) -> &[Span] {
        &self.spans
    }

    /// The same tokens at other times.
    pub fn moved(&self, to: impl Fn(u32) -> u32) -> Tokens {
        let one = |s: &Span| Span { start: to(s.start), end: to(s.end), ..*s };
        let spans = self.spans.iter().map(one).collect();
        Tokens { spans, first: self.first.clone(), end: to(self.end) }
    }
}

/// Words of a token: value, duration and, from edition 2 on, job.
pub fn width(edition: u32) -> Option<usize> {
    match edition {
        1 => Some(2),
        2 => Some(3),
        _ => None,
    }
}

/// The token counts of the lines, and the words of a token: faults 5 to 7.
fn counts(words: &[u32], variables: usize) -> Result<(Vec<u32>, usize), Answer> {
    let tokens_at = 3 + 2 * variables;
    if words.len() < tokens_at || words.len() > MAX_WORDS {
        return Err([5, 0, 0, 0]);
    }
    let width = width(words[0]).ok_or([6, 0, 0, 0])?;
    for (i, expected) in [(1, words.len()), (2, variables)] {
        if words[i] as usize != expected {
            return Err([6, i as u32, 0, 0]);
        }
    }
    let mut sum = 0;
    let mut counts = Vec::with_capacity(variables);
    for line in 0..variables {
        let at = 3 + 2 * line;
        if words[at] != sum {
            return Err([6, at as u32, 0, 0]);
        }
        if words[at + 1] > MAX_TOKENS {
            return Err([6, at as u32 + 1, 0, 0]);
        }
        sum += words[at + 1];
        counts.push(words[at + 1]);
    }
    if tokens_at + width * sum as usize != words.len() {
        return Err([7, 0, 0, 0]);
    }
    Ok((counts, width))
}

/// The tokens of a line, as words.
type Records<'a> = std::slice::ChunksExact<'a, u32>;

/// Faults 5 to 11, then 18.
pub fn tokens<T>(book: &Book<T>, words: &[u32]) -> Result<Tokens, Answer> {
    let lines = book.variables.len();
    let (counts, width) = counts(words, lines)?;
    let mut left = &words[3 + 2 * lines..];
    let mut split = Vec::with_capacity(lines);
    let mut ends = Vec::with_capacity(lines);
    // How many tokens each value has, one place further on.
    let mut first = vec![0; book.values.len() + 1];
    for (line, count) in counts.into_iter().enumerate() {
        let (own, after) = left.split_at(width * count as usize);
        let own = own.chunks_exact(width);
        let base = book.variables[line].start;
        let values = &book.values[book.variables[line].clone()];
        let end = check_line(values, own.clone(), &mut first[base + 1..])
            .map_err(|(number, token)| [number, line as u32, token as u32, 0])?;
        ends.push(end);
        split.push((base, own));
        left = after;
    }
    if let Some(line) = ends.iter().position(|end| *end != ends[0]) {
        return Err([18, line as u32, 0, 0]);
    }
    for value in 1..first.len() {
        first[value] += first[value - 1];
    }
    // No line ends after the last tick, so the end fits.
    Ok(Tokens { spans: gather(&split, &first), first, end: ends[0] as u32 })
}

/// Faults 8 to 11 of one line, each with its token; counts the tokens. Gives
/// the line's end, which is 0 where there is no token.
fn check_line(values: &[Value], own: Records, seen: &mut [usize]) -> Result<u64, (u32, usize)> {
    let mut time = 0u64;
    let mut may_follow = u32::MAX;
    for (token, record) in own.enumerate() {
        let (number, duration) = (record[0], record[1]);
        let value = values.get(number as usize).ok_or((8, token))?;
        let too_long = value.greatest != N && duration > value.greatest;
        if duration < value.least || too_long {
            return Err((9, token));
        }
        if may_follow >> number & 1 == 0 {
            return Err((10, token));
        }
        time += u64::from(duration);
        if time > u64::from(LAST) {
            return Err((11, token));
        }
        may_follow = value.successors;
        seen[number as usize] += 1;
    }
    Ok(time)
}

/// The tokens of good lines, each line with the record of its first value.
fn gather(lines: &[(usize, Records)], first: &[usize]) -> Vec<Span> {
    let mut next = first.to_vec();
    let mut spans = vec![Span::default(); *first.last().unwrap_or(&0)];
    for (base, own) in lines {
        let mut start = 0;
        for (record, token) in own.clone().zip(0..) {
            let end = start + record[1];
            let place = &mut next[base + record[0] as usize];
            let job = record.get(2).copied().unwrap_or(0);
            spans[*place] = Span { start, end, token, job };
            *place += 1;
            start = end;
        }
    }
    spans
}
