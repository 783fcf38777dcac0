//! Taking rules out of a book. The kept rules are read record by record and the
//! book is put together anew, away from the lent words.

use crate::decode::decode;
use crate::desks::list_right;
use crate::layout::{tables, Answer, Kind, HEADER, N};
use crate::search::Atom;
use crate::specimens::E;

/// A run of whole records that a record gives by first and number.
fn part(words: &[u32], size: usize, first: u32, number: u32) -> &[u32] {
    let from = size * first as usize;
    &words[from..from + size * number as usize]
}

/// The sound book without the rules that `gone` names.
fn shorter(book: &[u32], gone: &[u32]) -> Result<Vec<u32>, Answer> {
    let old = tables(book, Kind::Book)?;
    let sizes = Kind::Book.sizes();
    let mut new: [Vec<u32>; 6] = Default::default();
    for table in [0, 1] {
        new[table] = old.words(table).to_vec();
    }
    for (number, rule) in (0u32..).zip(old.records(2)) {
        if gone.contains(&number) {
            continue;
        }
        let first = (new[3].len() / sizes[3]) as u32;
        new[2].extend([rule[0], rule[1], first, rule[3]]);
        for one in part(old.words(3), sizes[3], rule[2], rule[3]).chunks_exact(sizes[3]) {
            let (name, atom) = (new[4].len() / sizes[4], new[5].len() / sizes[5]);
            new[3].extend([name as u32, one[1], atom as u32, one[3]]);
            new[4].extend(part(old.words(4), sizes[4], one[0], one[1]));
            new[5].extend(part(old.words(5), sizes[5], one[2], one[3]));
        }
    }
    let total = HEADER + new.iter().map(Vec::len).sum::<usize>();
    let mut out = vec![Kind::Book.edition(), total as u32];
    let mut at = HEADER;
    for (table, size) in new.iter().zip(sizes) {
        out.extend([(table.len() / size) as u32, at as u32]);
        at += table.len();
    }
    out.extend(new.into_iter().flatten());
    Ok(out)
}

/// Takes the rules of the list out of the lent book and their desks out of the
/// lent list of desks. Words past either new end stay.
pub fn remove_rules(book: &mut [u32], desks: &mut [u32], list: &[u32]) -> Answer {
    let removed = || -> Result<(Vec<u32>, Vec<u32>), Answer> {
        let rules = decode::<Atom>(book)?.rules.len();
        if !list_right(rules, desks) {
            return Err([19, 0, 0, 0]);
        }
        let rising = list.windows(2).all(|pair| pair[0] < pair[1]);
        if !rising || list.iter().any(|number| *number as usize >= rules) {
            return Err([24, 0, 0, 0]);
        }
        let kept = (0u32..).zip(&*desks).filter(|(number, _)| !list.contains(number));
        let kept = kept.map(|(_, desk)| *desk).collect();
        Ok((shorter(book, list)?, kept))
    };
    match removed() {
        Err(fault) => fault,
        Ok((words, kept)) => {
            book[..words.len()].copy_from_slice(&words);
            desks[..kept.len()].copy_from_slice(&kept);
            [0, words.len() as u32, kept.len() as u32, 0]
        }
    }
}

/// A book, a list of desks, the rules to take out, the answer, and both runs of
/// words as they are afterwards.
pub struct Specimen {
    pub name: &'static str,
    pub book: Vec<u32>,
    pub desks: Vec<u32>,
    pub list: Vec<u32>,
    pub answer: Answer,
    pub book_after: Vec<u32>,
    pub desks_after: Vec<u32>,
}

/// Two rules of one alternative each, the first with a name.
#[rustfmt::skip] // a table to a line
pub const Q: [u32; 37] = [
    1, 37, 1, 14, 1, 16, 2, 19, 2, 27, 1, 35, 0, 37,
    0, 1,
    1, N, 1,
    0, 0, 0, 1, N, 0, 1, 1,
    0, 1, 0, 0, 1, 0, 0, 0,
    0, 0,
];

#[rustfmt::skip] // a call to a line
pub fn specimens() -> Vec<Specimen> {
    let refused = |name, book: &[u32], desks: &[u32], list: &[u32], number| Specimen {
        name, book: book.into(), desks: desks.into(), list: list.into(), answer: [number, 0, 0, 0],
        book_after: book.into(), desks_after: desks.into(),
    };
    let q = |name, list: &[u32], rules, head: &[u32], desks_after: &[u32]| Specimen {
        name, book: Q.into(), desks: vec![1, 0], list: list.into(), answer: [0, head.len() as u32, rules, 0],
        book_after: [head, &Q[head.len()..]].concat(), desks_after: desks_after.into(),
    };
    let empty = [1, 30, 2, 14, 4, 18, 0, 30, 0, 30, 0, 30, 0, 30];
    vec![
        Specimen {
            name: "E's only rule", book: E.into(), desks: vec![1], list: vec![0], answer: [0, 30, 0, 0],
            book_after: [&empty[..], &E[14..]].concat(), desks_after: vec![1],
        },
        Specimen {
            name: "an empty list", book: E.into(), desks: vec![1], list: vec![], answer: [0, 52, 1, 0],
            book_after: E.into(), desks_after: vec![1],
        },
        refused("a rule that isn't there", &E, &[1], &[1], 24),
        refused("a rule twice", &E, &[1], &[0, 0], 24),
        refused("rules in falling order", &Q, &[1, 0], &[1, 0], 24),
        refused("rule N", &Q, &[1, 0], &[0, N], 24),
        refused("no desks", &E, &[], &[7], 19),
        refused("a desk over 1", &E, &[2], &[0], 19),
        refused("a desk too many", &E, &[1, 0], &[0], 19),
        refused("a book of 13 words", &E[..13], &[], &[0], 1),
        q("the first of two rules", &[0], 1,
            &[1, 27, 1, 14, 1, 16, 1, 19, 1, 23, 0, 27, 0, 27, 0, 1, 1, N, 1, N, 0, 0, 1, 0, 0, 0, 0], &[0, 0]),
        q("the second of two rules", &[1], 1,
            &[1, 29, 1, 14, 1, 16, 1, 19, 1, 23, 1, 27, 0, 29, 0, 1, 1, N, 1, 0, 0, 0, 1, 0, 1, 0, 0, 0, 0], &[1, 0]),
        q("both rules", &[0, 1], 0,
            &[1, 19, 1, 14, 1, 16, 0, 19, 0, 19, 0, 19, 0, 19, 0, 1, 1, N, 1], &[1, 0]),
    ]
}

#[cfg(test)]
mod tests {
    use super::*;
    use crate::generate::random::{pair, SMALL};
    use crate::generate::rng::Rng;
    use crate::{judge, layout};

    #[test]
    fn specimens_give_their_words() {
        assert_eq!(judge(&Q, &[]), [5, 0, 0, 0]);
        for s in specimens() {
            let (mut book, mut desks) = (s.book.clone(), s.desks.clone());
            assert_eq!(remove_rules(&mut book, &mut desks, &s.list), s.answer, "{}", s.name);
            assert_eq!((book, desks), (s.book_after, s.desks_after), "{}", s.name);
        }
        // The lent run is longer than the book that it holds now.
        let mut book = E.to_vec();
        remove_rules(&mut book, &mut [1], &[0]);
        assert_eq!(judge(&book, &[]), [2, 1, 0, 0]);
        assert_eq!(judge(&book[..30], &[]), [5, 0, 0, 0]);
    }

    /// The draft without those rules gives the same words.
    #[test]
    fn what_is_left_is_the_draft_of_the_kept_rules() {
        for case in 0..2_000 {
            let mut rng = Rng::new(13, case);
            let (mut draft, _) = pair(&mut rng, layout::Kind::Book, SMALL);
            let mut book = draft.words();
            let mut desks = vec![0; draft.rules.len()];
            let list: Vec<u32> =
                (0..draft.rules.len() as u32).filter(|_| rng.percent(50)).collect();
            let answer = remove_rules(&mut book, &mut desks, &list);
            list.iter().rev().for_each(|rule| drop(draft.rules.remove(*rule as usize)));
            let kept = draft.words();
            assert_eq!(answer, [0, kept.len() as u32, draft.rules.len() as u32, 0]);
            assert_eq!(book[..kept.len()], kept, "case {case}");
        }
    }
}
