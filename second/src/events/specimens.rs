//! The law's lists.

use crate::layout::{Answer, N};
use crate::specimens::{with, B1, E, P1, P2};

/// A book, a plan, the room before, the answer and the room afterwards.
pub struct Writing {
    pub name: &'static str,
    pub book: Vec<u32>,
    pub plan: Vec<u32>,
    pub room: Vec<u32>,
    pub answer: Answer,
    pub after: Vec<u32>,
}

/// The same for a list that is read.
pub struct Reading {
    pub name: &'static str,
    pub book: Vec<u32>,
    pub list: Vec<u32>,
    pub room: Vec<u32>,
    pub answer: Answer,
    pub after: Vec<u32>,
}

/// P2 by E.
#[rustfmt::skip] // an event to a line
pub const L: [u32; 49] = [
    1, 49, 5,
    0, 2, 0, 0, 1, 1, 0, 1,
    10, 4, 0, 0, 0, 0, 1, 1, 1, 0, 0, 1, 1, 1,
    20, 2, 1, 1, 0, 1, 0, 1,
    10, 2, 1, 0, 0, 1, 1, 1,
    10, 2, 0, 1, 0, 1, 1, 0,
];

/// The words at the start of a room of nines.
fn room(words: &[u32], len: usize) -> Vec<u32> {
    let mut room = vec![9; len];
    room[..words.len()].copy_from_slice(words);
    room
}

pub fn writing() -> Vec<Writing> {
    let made =
        |(name, book, plan, len, answer, words): (_, &[u32], &[u32], _, _, &[u32])| Writing {
            name,
            book: book.into(),
            plan: plan.into(),
            room: vec![9; len],
            answer,
            after: room(words, len),
        };
    let one = [2, 15, 2, 0, 1, 0, 0, 1, N, 5, 1, 0, 0, 0, N];
    let mut list: Vec<Writing> = [
        ("P2 as events", &E[..], &P2[..], 50, [0, 49, 0, 0], &L[..]),
        ("P2 as events, room to the word", &E, &P2, 49, [0, 49, 0, 0], &L),
        ("P2 as events, room of 48", &E, &P2, 48, [21, 49, 0, 0], &[]),
        ("P2 as events, no room", &E, &P2, 0, [21, 49, 0, 0], &[]),
        ("an empty plan", &E, &[1, 7, 2, 0, 0, 0, 0], 4, [0, 3, 0, 0], &[1, 3, 0]),
        ("an empty plan of edition 2", &E, &[2, 7, 2, 0, 0, 0, 0], 3, [0, 3, 0, 0], &[2, 3, 0]),
        ("lines that end apart", &E, &[1, 9, 2, 0, 1, 1, 0, 0, 5], 50, [18, 1, 0, 0], &[]),
        ("a book of 13 words", &E[..13], &P2, 50, [1, 0, 0, 0], &[]),
        ("no plan", &E, &[], 50, [5, 0, 0, 0], &[]),
        ("job N on both actions", &B1, &[2, 8, 1, 0, 1, 0, 5, N], 15, [0, 15, 0, 0], &one),
    ]
    .map(made)
    .into();
    // P1 breaks a rule, and is written all the same.
    #[rustfmt::skip] // an event to a line
    let p1 = [
        1, 55, 5,
        0, 2, 0, 0, 1, 1, 0, 1,
        10, 4, 0, 0, 0, 0, 1, 1, 1, 0, 0, 1, 1, 1,
        20, 2, 1, 1, 0, 1, 0, 1,
        10, 4, 0, 1, 0, 0, 0, 1, 1, 0, 0, 1, 1, 1,
        10, 2, 0, 0, 0, 1, 1, 0,
    ];
    list.push(made(("P1 as events", &E, &P1, 100, [0, 55, 0, 0], &p1)));
    list
}

pub fn reading() -> Vec<Reading> {
    let made = |(name, book, list, len, answer, words): (_, &[u32], Vec<u32>, _, _, &[u32])| {
        let (book, after) = (book.into(), room(words, len));
        Reading { name, book, list, room: vec![9; len], answer, after }
    };
    let mut list = vec![
        made(("L read", &E, L.into(), 20, [0, 19, 0, 0], &P2)),
        made(("L read, room of 18", &E, L.into(), 18, [21, 19, 0, 0], &[])),
        made(("the empty list", &E, vec![1, 3, 0], 8, [0, 7, 0, 0], &[1, 7, 2, 0, 0, 0, 0])),
        made(("the same of edition 2", &E, vec![2, 3, 0], 8, [0, 7, 0, 0], &[2, 7, 2, 0, 0, 0, 0])),
        made(("the empty list, room of 6", &E, vec![1, 3, 0], 6, [21, 7, 0, 0], &[])),
        made((
            "job 0 throughout is still edition 2",
            &B1,
            vec![2, 15, 2, 0, 1, 0, 0, 1, 0, 5, 1, 0, 0, 0, 0],
            8,
            [0, 8, 0, 0],
            &[2, 8, 1, 0, 1, 0, 5, 0],
        )),
        made((
            "the same of edition 1",
            &B1,
            vec![1, 13, 2, 0, 1, 0, 0, 1, 5, 1, 0, 0, 0],
            8,
            [0, 7, 0, 0],
            &[1, 7, 1, 0, 1, 0, 5],
        )),
        made(("a book of 13 words", &E[..13], L.into(), 20, [1, 0, 0, 0], &[])),
    ];
    let refused = refused().into_iter();
    list.extend(
        refused.map(|(name, book, words)| made((name, book, words, 20, [20, 0, 0, 0], &[]))),
    );
    let short = with(&L, 14, 1);
    list.push(made(("a short room doesn't hide 20", &E, short, 0, [20, 0, 0, 0], &[])));
    list
}

/// L with some words in the place of others.
fn changed(from: usize, to: usize, words: &[u32]) -> Vec<u32> {
    [&L[..from], words, &L[to..]].concat()
}

/// What the writer could not have made.
fn refused() -> Vec<(&'static str, &'static [u32], Vec<u32>)> {
    let without_actions = [&[1, 51, 6], &L[3..], &[1, 0]].concat();
    vec![
        ("a word more", &E, [&L[..], &[0]].concat()),
        ("a word less", &E, L[..48].to_vec()),
        ("all ends before all starts", &E, changed(13, 25, &[0, 0, 0, 1, 0, 0, 0, 1, 1, 1, 1, 1])),
        ("start before end", &E, changed(13, 19, &[0, 1, 1, 0, 0, 0])),
        ("the first delay 1", &E, with(&L, 3, 1)),
        ("a later delay 0", &E, with(&L, 25, 0)),
        ("the end names another value", &E, with(&L, 14, 1)),
        ("an event without actions at the end", &E, without_actions),
        ("the empty list with one", &E, vec![1, 5, 1, 0, 0]),
        ("only line 0 runs", &E, vec![1, 13, 2, 0, 1, 0, 0, 1, 5, 1, 0, 0, 0]),
        ("N actions", &E, vec![1, 5, 1, 0, N]),
        ("as many actions as wrap", &E, vec![1, 5, 1, 0, 1_431_655_766]),
        ("N events", &E, vec![1, 3, N]),
        (
            "times that leave 32 bits",
            &B1,
            vec![1, 21, 3, 0, 1, 0, 0, 1, N, 2, 0, 0, 0, 0, 0, 1, 6, 1, 0, 0, 0],
        ),
        ("a token left running", &B1, vec![1, 8, 1, 0, 1, 0, 0, 1]),
        ("a line that isn't there", &B1, vec![1, 13, 2, 0, 1, 1, 0, 1, 5, 1, 1, 0, 0]),
        ("neither end nor start", &E, with(&L, 7, 2)),
        ("edition 3", &E, vec![3, 3, 0]),
        ("edition 0", &E, vec![0, 3, 0]),
        ("two words", &E, vec![1, 2]),
        ("no words", &E, vec![]),
        ("an end with another job", &B1, vec![2, 15, 2, 0, 1, 0, 0, 1, N, 5, 1, 0, 0, 0, 7]),
    ]
}
