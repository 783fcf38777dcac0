//! What the constraints of a sheet's alternative leave for every two of its
//! tokens, relation by relation.

use crate::decode::{decode, Book};
use crate::layout::{Answer, N};
use crate::sheet::{relation, Constraint, RELATIONS};
use crate::specimens::{with, E, E_SHEET};
use std::sync::OnceLock;

const ALL: usize = RELATIONS as usize;
/// The relation of a token with itself.
const EQUALS: usize = 6;

/// Whether three stretches show relations p, q and r: the first to the second,
/// the second to the third, the first to the third.
type Shown = [[[bool; ALL]; ALL]; ALL];

/// Six ends have at most six places, so stretches with ends below 6 are all
/// that need be looked at.
fn shown() -> &'static Shown {
    static SHOWN: OnceLock<Shown> = OnceLock::new();
    SHOWN.get_or_init(|| {
        let mut shown = [[[false; ALL]; ALL]; ALL];
        let stretches: Vec<(u32, u32)> =
            (0..6).flat_map(|end| (0..end).map(move |start| (start, end))).collect();
        for &first in &stretches {
            for &second in &stretches {
                for &third in &stretches {
                    let p = relation(first, second) as usize;
                    let q = relation(second, third) as usize;
                    shown[p][q][relation(first, third) as usize] = true;
                }
            }
        }
        shown
    })
}

/// Which relations are left for each two of the tokens.
struct Left {
    tokens: usize,
    left: Vec<[bool; ALL]>,
}

impl Left {
    fn new(tokens: usize) -> Left {
        let mut left = vec![[true; ALL]; tokens * tokens];
        for token in 0..tokens {
            let own = &mut left[token * tokens + token];
            *own = [false; ALL];
            own[EQUALS] = true;
        }
        Left { tokens, left }
    }

    /// Right stands to left in the converse, found by turning a pair of
    /// stretches that show the relation.
    fn constrain(&mut self, l: usize, r: usize, set: u32) {
        for k in 0..ALL {
            if set >> k & 1 == 0 {
                self.left[l * self.tokens + r][k] = false;
                self.left[r * self.tokens + l][converse(k)] = false;
            }
        }
    }

    /// Whether relation r of first to third can be had by way of the second.
    fn by_way(&self, first: usize, second: usize, third: usize, r: usize) -> bool {
        let before = &self.left[first * self.tokens + second];
        let behind = &self.left[second * self.tokens + third];
        let shown = shown();
        (0..ALL).any(|p| before[p] && (0..ALL).any(|q| behind[q] && shown[p][q][r]))
    }

    /// Strikes single relations, last token first, until every one that is
    /// left can be had by way of every token.
    fn narrow(&mut self) {
        loop {
            let mut struck = false;
            for first in (0..self.tokens).rev() {
                for third in (0..self.tokens).rev() {
                    for r in 0..ALL {
                        let at = first * self.tokens + third;
                        let had = (0..self.tokens).all(|k| self.by_way(first, k, third, r));
                        if self.left[at][r] && !had {
                            self.left[at][r] = false;
                            struck = true;
                        }
                    }
                }
            }
            if !struck {
                return;
            }
        }
    }
}

fn converse(k: usize) -> usize {
    let ends = || (0..4).flat_map(|end| (0..end).map(move |start| (start, end)));
    ends()
        .flat_map(|left| ends().map(move |right| (left, right)))
        .find(|&(left, right)| relation(left, right) as usize == k)
        .map(|(left, right)| relation(right, left) as usize)
        .expect("four ends show each relation")
}

/// Fills the table for an alternative of a sheet.
pub fn narrow(sheet: &[u32], alternative: u32, table: &mut [u32]) -> Answer {
    let book: Book<Constraint> = match decode(sheet) {
        Ok(book) => book,
        Err(fault) => return fault,
    };
    let number = alternative as usize;
    let Some(own) = book.alternatives.get(number) else {
        return [27, 0, 0, 0];
    };
    let rule = book.rules.iter().find(|rule| rule.alternatives.contains(&number));
    let without = usize::from(rule.expect("each alternative has a rule").trigger.is_none());
    let tokens = own.names.len() + 1 - without;
    if table.len() < tokens * tokens {
        return [25, 0, 0, 0];
    }
    let mut left = Left::new(tokens);
    for test in &book.tests[own.tests.clone()] {
        left.constrain(test.left - without, test.right - without, test.set);
    }
    left.narrow();
    for (word, set) in table.iter_mut().zip(&left.left) {
        *word = (0..ALL).filter(|&k| set[k]).map(|k| 1 << k).sum();
    }
    [0, 0, 0, 0]
}

/// A sheet, an alternative and the words of the table, and what they give.
pub struct Specimen {
    pub name: &'static str,
    pub sheet: Vec<u32>,
    pub alternative: u32,
    pub room: usize,
    pub answer: Answer,
    /// The words that are written.
    pub written: Vec<u32>,
}

/// The law's specimens.
#[rustfmt::skip] // a sheet to a line
pub fn specimens() -> Vec<Specimen> {
    let own = vec![2, 32, 1, 14, 1, 16, 1, 19, 1, 23, 1, 27, 1, 29, 0, 1, 1, N, 1, 0, 0, 0, 1, 0, 1, 0, 1, 0, 0, 1, 1, 1];
    let both = vec![2, 35, 1, 14, 1, 16, 1, 19, 1, 23, 1, 27, 2, 29, 0, 1, 1, N, 1, 0, 0, 0, 1, 0, 1, 0, 2, 0, 0, 0, 1, 1, 1, 0, 1];
    let meets = vec![2, 34, 1, 14, 1, 16, 1, 19, 1, 23, 2, 27, 1, 31, 0, 1, 1, N, 1, N, 0, 0, 1, 0, 2, 0, 1, 0, 0, 0, 0, 1, 2, 2];
    let none = vec![2, 27, 1, 14, 1, 16, 1, 19, 1, 23, 0, 27, 0, 27, 0, 1, 1, N, 1, N, 0, 0, 1, 0, 0, 0, 0];
    let chain = vec![2, 39, 1, 14, 1, 16, 1, 19, 1, 23, 3, 27, 2, 33, 0, 1, 1, N, 1, N, 0, 0, 1, 0, 3, 0, 2, 0, 0, 0, 0, 0, 0, 1, 2, 1, 2, 3, 1];
    let stays = vec![2, 51, 1, 14, 1, 16, 1, 19, 1, 23, 3, 27, 6, 33, 0, 1, 1, N, 1, 0, 0, 0, 1, 0, 3, 0, 6, 0, 0, 0, 0, 0, 0,
        0, 2, 4, 0, 1, 34, 0, 3, 34, 1, 2, 272, 3, 2, 272, 1, 3, 520];
    let any = with(&own, 31, 8191);
    let e = E_SHEET.to_vec();
    let list: [(&'static str, Vec<u32>, u32, usize, Answer, &[u32]); 12] = [
        ("E as a sheet, a word behind", e.clone(), 0, 5, [0, 0, 0, 0], &[64, 864, 216, 64]),
        ("E as a sheet, table of 3", e.clone(), 0, 3, [25, 0, 0, 0], &[]),
        ("E as a sheet, alternative 1", e.clone(), 1, 0, [27, 0, 0, 0], &[]),
        ("E as a sheet, alternative N", e, N, 25, [27, 0, 0, 0], &[]),
        ("a book", E.to_vec(), 0, 25, [2, 0, 0, 0], &[]),
        ("each before the other", both, 0, 4, [0, 0, 0, 0], &[0; 4]),
        ("before itself", own, 0, 4, [0, 0, 0, 0], &[0; 4]),
        ("in any relation with itself", any, 0, 4, [0, 0, 0, 0], &[64, 8191, 8191, 64]),
        ("no trigger, 1 meets 2", meets, 0, 5, [0, 0, 0, 0], &[64, 2, 2048, 64]),
        ("no tokens", none, 0, 0, [0, 0, 0, 0], &[]),
        ("before and before", chain, 0, 9, [0, 0, 0, 0], &[64, 1, 1, 4096, 64, 1, 4096, 4096, 64]),
        ("can't be met, and stays", stays, 0, 16, [0, 0, 0, 0],
            &[64, 34, 4, 34, 2176, 64, 272, 520, 1024, 272, 64, 272, 2176, 520, 272, 64]),
    ];
    list.map(|(name, sheet, alternative, room, answer, written)| Specimen {
        name, sheet, alternative, room, answer, written: written.to_vec(),
    })
    .into()
}

#[cfg(test)]
mod tests {
    use super::*;

    #[test]
    fn specimens_give_their_tables() {
        for specimen in specimens() {
            let mut table = vec![9; specimen.room];
            let answer = narrow(&specimen.sheet, specimen.alternative, &mut table);
            assert_eq!(answer, specimen.answer, "{}", specimen.name);
            let written = specimen.written.len();
            assert_eq!(table[..written], specimen.written, "{}", specimen.name);
            assert!(table[written..].iter().all(|&word| word == 9), "{}", specimen.name);
        }
    }

    #[test]
    fn the_table_has_409_entries() {
        let entries = shown().iter().flatten().flatten().filter(|&&entry| entry).count();
        assert_eq!(entries, 409);
        assert!((0..ALL).all(|k| converse(k) == 12 - k));
    }
}
