//! Bounds against the end of the plan, kind 3.

use super::{Call, Specimen, SOUND};
use crate::layout::{LAST, N};

/// One variable of one value, and a rule of one atom without trigger and names.
fn d(atom: [u32; 6]) -> Vec<u32> {
    let book =
        [1, 33, 1, 14, 1, 16, 1, 19, 1, 23, 0, 27, 1, 27, 0, 1, 1, N, 1, N, 0, 0, 1, 0, 0, 0, 1];
    [&book[..], &atom].concat()
}

/// The same with one name.
pub fn j(atom: [u32; 6]) -> Vec<u32> {
    let book = [
        1, 35, 1, 14, 1, 16, 1, 19, 1, 23, 1, 27, 1, 29, 0, 1, 1, N, 1, N, 0, 0, 1, 0, 1, 0, 1, 0,
        0,
    ];
    [&book[..], &atom].concat()
}

/// The same with a trigger and no name.
fn triggered(atom: [u32; 6]) -> Vec<u32> {
    let mut book = d(atom);
    book[19] = 0;
    book
}

/// One line of one token.
fn one(duration: u32) -> Vec<u32> {
    vec![1, 7, 1, 0, 1, 0, duration]
}

const EMPTY: [u32; 5] = [1, 5, 1, 0, 0];
/// From time point 0 to the end of the plan at least 1.
const SOME: [u32; 6] = [2, 0, 3, 0, 1, N];

pub fn all() -> Vec<Specimen> {
    let judge = |atom, plan: &[u32]| Call::Judge(d(atom), plan.to_vec());
    let shows = |book: Vec<u32>, times: &[u64]| Call::Earliest(book, 0, times.to_vec());
    // "Last bundle at least 20 before the end": the trigger's end, 20 or more.
    let bundle = |plan: Vec<u32>| Call::Judge(triggered([1, 0, 3, 0, 20, N]), plan);
    let pulled = vec![
        1, 40, 1, 14, 2, 16, 1, 22, 1, 26, 2, 30, 1, 34, 0, 2, 1, N, 3, 100, 100, 3, N, 0, 0, 1, 0,
        2, 0, 1, 0, 0, 0, 1, 0, 1, 3, 0, 0, 5,
    ];
    let made = |(name, call, expected)| Specimen { name, call, expected };
    [
        ("kind 3 left, argument 1", Call::Check(j([3, 1, 0, 1, 0, N])), [4, 5, 0, 1]),
        ("kind 3 right, argument 1", Call::Check(j([0, 1, 3, 1, 0, N])), [4, 5, 0, 3]),
        ("kind 3 on both sides", Call::Check(j([3, 0, 3, 0, 0, 0])), SOUND),
        ("kind 3 without tokens", Call::Check(d(SOME)), SOUND),
        ("the empty plan ends at 0", judge(SOME, &EMPTY), [12, 0, 0, 0]),
        ("a plan that ends at 1", judge(SOME, &one(1)), [0, 1, 0, 0]),
        ("the end to itself, 0", judge([3, 0, 3, 0, 0, 0], &EMPTY), [0, 1, 0, 0]),
        ("the end to itself, 1", judge([3, 0, 3, 0, 1, N], &one(1)), [12, 0, 0, 0]),
        ("the end at the last tick", judge([2, 0, 3, 0, LAST, LAST], &one(LAST)), [0, 1, 0, 0]),
        ("the end before a time point", judge([3, 0, 2, 9, 4, 4], &one(5)), [0, 1, 0, 0]),
        ("a bundle that ends the day", bundle(one(30)), [12, 0, 0, 0]),
        ("the last bundle of two", bundle(vec![1, 9, 1, 0, 2, 0, 5, 0, 25]), [12, 0, 1, 0]),
        ("earliest end of a plan that lasts", shows(d(SOME), &[1]), [0, 1, 0, 0]),
        ("earliest, the end to itself", shows(d([3, 0, 3, 0, 0, 0]), &[0]), [0, 1, 0, 0]),
        ("never, the end to itself", shows(d([3, 0, 3, 0, 1, N]), &[]), [0, 0, 0, 0]),
        ("earliest, the end at time point 0", shows(d([3, 0, 2, 0, 0, N]), &[0]), [0, 1, 0, 0]),
        ("never, the end before 0", shows(d([3, 0, 2, 0, 1, N]), &[]), [0, 0, 0, 0]),
        ("never, a name behind the end", shows(j([3, 0, 1, 1, 1, N]), &[]), [0, 0, 0, 0]),
        ("never, the trigger behind the end", shows(triggered([3, 0, 1, 0, 1, N]), &[]), [0; 4]),
        ("a start pulled up by the end", shows(pulled, &[95, 96, 0, 100, 100]), [0, 1, 0, 0]),
    ]
    .map(made)
    .into()
}
