//! The law's specimens, by name, with the lines it expects, and some more for
//! the traps it names.

use crate::generate::draft::{alternative, plan_words, AlternativeDraft, Draft, NO_TRIGGER};
use crate::layout::{Answer, Kind, LAST, N};

pub mod jobs;
pub mod plan_end;

pub enum Call {
    Judge(Vec<u32>, Vec<u32>),
    /// A book alone, which is judged with a plan of no words: a sound one gets
    /// as far as 5.
    Check(Vec<u32>),
    JudgeSheet(Vec<u32>, Vec<u32>),
    /// A sheet and the words of room.
    Translate(Vec<u32>, usize),
    /// A book, an alternative's number, and the times that are shown.
    Earliest(Vec<u32>, u32, Vec<u64>),
}

pub struct Specimen {
    pub name: &'static str,
    pub call: Call,
    pub expected: Answer,
}

pub const E: [u32; 52] = [
    1, 52, 2, 14, 4, 18, 1, 30, 1, 34, 1, 38, 2, 40, // header
    0, 2, 2, 2, // variables: decoder, RIP
    1, N, 2, 1, N, 1, 1, N, 2, 5, 60, 3, // values
    1, 1, 0, 1, // rule
    0, 1, 0, 2, // alternative
    0, 1, // name
    0, 1, 0, 0, 0, N, 1, 0, 1, 1, 0, N, // atoms
];
/// E's rule as a sheet: the job starts, equals, is during or finishes.
pub const E_SHEET: [u32; 43] = [
    2, 43, 2, 14, 4, 18, 1, 30, 1, 34, 1, 38, 1, 40, // header
    0, 2, 2, 2, // variables
    1, N, 2, 1, N, 1, 1, N, 2, 5, 60, 3, // values
    1, 1, 0, 1, // rule
    0, 1, 0, 1, // alternative
    0, 1, // name
    0, 1, 864, // constraint
];
pub const P1: [u32; 21] = [1, 21, 2, 0, 3, 3, 4, 0, 10, 1, 30, 0, 10, 0, 10, 1, 20, 0, 10, 1, 10];
pub const P2: [u32; 19] = [1, 19, 2, 0, 2, 2, 4, 0, 10, 1, 40, 0, 10, 1, 20, 0, 10, 1, 10];
/// P2 in edition 2.
pub const P2_JOBS: [u32; 25] =
    [2, 25, 2, 0, 2, 2, 4, 0, 10, 7, 1, 40, N, 0, 10, 0, 1, 20, 7, 0, 10, 0, 1, 10, 7];
pub const EMPTY_PLAN: [u32; 7] = [1, 7, 2, 0, 0, 0, 0];
/// What a sound book gets with a plan of no words.
pub const SOUND: Answer = [5, 0, 0, 0];

/// One variable, one value of any duration, no rule.
pub const B1: [u32; 19] = [1, 19, 1, 14, 1, 16, 0, 19, 0, 19, 0, 19, 0, 19, 0, 1, 1, N, 1];

/// The plan with one word changed.
pub fn with(words: &[u32], at: usize, word: u32) -> Vec<u32> {
    let mut out = words.to_vec();
    out[at] = word;
    out
}

/// E's variables with one rule of its own.
fn one_rule(kind: Kind, trigger: [u32; 2], alternatives: Vec<AlternativeDraft>) -> Vec<u32> {
    let decoder = vec![[1, N, 2], [1, N, 1]];
    let rip = vec![[1, N, 2], [5, 60, 3]];
    let mut draft = Draft::new(kind, vec![decoder, rip]);
    draft.rule(trigger, alternatives);
    draft.words()
}

/// A book that wants a token of value 0 whose length is 10..20.
fn bounds() -> Vec<u32> {
    one_rule(Kind::Book, NO_TRIGGER, vec![alternative(&[[0, 0]], &[&[0, 1, 1, 1, 10, 20]])])
}

/// One token of value 0 on each line.
fn one_token(duration: u32) -> Vec<u32> {
    plan_words(&vec![vec![[0, duration]]; 2])
}

/// Value 0 is 0..10 on the decoder's line, value 1 is 10..20 on the RIP's.
fn side_by_side() -> Vec<u32> {
    plan_words(&vec![vec![[0, 10], [1, 10]]; 2])
}

fn relation(names: &[[u32; 2]], set: u32) -> Vec<u32> {
    one_rule(Kind::Sheet, [0, 0], vec![alternative(names, &[&[0, 1, set]])])
}

fn two_sets(first: u32, second: u32) -> Vec<u32> {
    let tests: [&[u32]; 2] = [&[0, 1, first], &[0, 1, second]];
    one_rule(Kind::Sheet, [1, 1], vec![alternative(&[[0, 1]], &tests)])
}

pub fn all() -> Vec<Specimen> {
    let mut list = from_the_law();
    list.extend(traps());
    list.extend(ends());
    list.extend(earliest());
    list.extend(wrong_words());
    list.extend(plan_end::all());
    list.extend(jobs::all());
    list
}

fn from_the_law() -> Vec<Specimen> {
    let e = |plan: Vec<u32>| Call::Judge(E.to_vec(), plan);
    let p2 = |at: usize, word: u32| Call::Judge(E.to_vec(), with(&P2, at, word));
    let free = |names: &[[u32; 2]]| {
        let book = one_rule(Kind::Book, NO_TRIGGER, vec![alternative(names, &[])]);
        Call::Judge(book, EMPTY_PLAN.to_vec())
    };
    let bounds = |duration| Call::Judge(bounds(), one_token(duration));
    let meeting = |set| Call::JudgeSheet(relation(&[[1, 1]], set), side_by_side());
    let room = |words: usize| Call::Translate(E_SHEET.to_vec(), words);
    let sets = |first, second| Call::Translate(two_sets(first, second), 16_384);
    let made = |(name, call, expected)| Specimen { name, call, expected };
    [
        ("P1", e(P1.to_vec()), [12, 0, 3, 0]),
        ("P2", e(P2.to_vec()), [0, 2, 0, 0]),
        ("empty plan", e(EMPTY_PLAN.to_vec()), [0, 0, 0, 0]),
        ("job of 20 at 4", p2(14, 4), [9, 1, 1, 0]),
        ("job of 20 at 61", p2(14, 61), [9, 1, 1, 0]),
        // These pass 9 and 11; their lines don't end together.
        ("job of 20 at 5", p2(14, 5), [18, 1, 0, 0]),
        ("job of 20 at 60", p2(14, 60), [18, 1, 0, 0]),
        ("second decoder value 0", p2(9, 0), [10, 0, 1, 0]),
        ("second decoder value 2", p2(9, 2), [8, 0, 1, 0]),
        ("second decoder to the last tick", p2(10, 999_999_990), [18, 1, 0, 0]),
        ("second decoder past the last tick", p2(10, 999_999_991), [11, 0, 1, 0]),
        ("no trigger, no names", free(&[]), [0, 1, 0, 0]),
        ("no trigger, one name", free(&[[0, 0]]), [12, 0, 0, 0]),
        ("bounds 10..20, difference 9", bounds(9), [12, 0, 0, 0]),
        ("bounds 10..20, difference 10", bounds(10), [0, 1, 0, 0]),
        ("bounds 10..20, difference 20", bounds(20), [0, 1, 0, 0]),
        ("bounds 10..20, difference 21", bounds(21), [12, 0, 0, 0]),
        ("0..10 meets 10..20", meeting(1 << 1), [0, 1, 0, 0]),
        ("0..10 isn't before 10..20", meeting(1 << 0), [12, 0, 0, 0]),
        ("E as a sheet, P1", Call::JudgeSheet(E_SHEET.to_vec(), P1.to_vec()), [12, 0, 3, 0]),
        ("E as a sheet, P2", Call::JudgeSheet(E_SHEET.to_vec(), P2.to_vec()), [0, 2, 0, 0]),
        ("E as a sheet, translated", room(16_384), [0, 106, 4, 0]),
        ("E as a sheet, room 106", room(106), [0, 106, 4, 0]),
        ("E as a sheet, room 105", room(105), [15, 106, 0, 0]),
        // 34 words, then 64 alternatives of one name and 240 atoms.
        ("sets of 8 and 8", sets(255, 255), [0, 1858, 64, 0]),
        ("sets of 5 and 13", sets(31, 8191), [13, 0, 0, 0]),
    ]
    .map(made)
    .into()
}

/// Which word of a record is wrong, where that is easily mistaken.
fn wrong_words() -> Vec<Specimen> {
    let book = |words: &[u32]| Call::Judge(words.to_vec(), EMPTY_PLAN.to_vec());
    let made = |(name, call, expected)| Specimen { name, call, expected };
    [
        (
            "no alternative is left for the second rule",
            book(&[
                1, 35, 1, 14, 1, 16, 2, 19, 2, 27, 0, 35, 0, 35, 0, 1, 1, N, 1, N, 0, 0, 2, N, 0,
                2, 1, 0, 0, 0, 0, 0, 0, 0, 0,
            ]),
            [4, 2, 1, 3],
        ),
        (
            "names are left over",
            book(&[
                1, 31, 1, 14, 1, 16, 1, 19, 1, 23, 2, 27, 0, 31, 0, 1, 1, N, 1, N, 0, 0, 1, 0, 1,
                0, 0, 0, 0, 0, 0,
            ]),
            [4, 3, 1, 0],
        ),
        ("a kind that isn't there", book(&with(&E, 46, 9)), [4, 5, 1, 0]),
        ("a right argument past the names", book(&with(&E, 49, 2)), [4, 5, 1, 3]),
        (
            "a set of 8,192",
            Call::JudgeSheet(with(&E_SHEET, 42, 8192), EMPTY_PLAN.to_vec()),
            [4, 5, 0, 2],
        ),
    ]
    .map(made)
    .into()
}

fn traps() -> Vec<Specimen> {
    let judge = |trigger, alternatives, plan| {
        Call::Judge(one_rule(Kind::Book, trigger, alternatives), plan)
    };
    let never: &[u32] = &[2, 1, 2, 0, 0, N];
    let lines = vec![vec![[0, 10], [1, 10], [0, 10]], vec![[0, 30]]];
    // Each atom alone has a token that suits it, no token suits both.
    let apart: [&[u32]; 2] = [&[0, 1, 2, 0, 0, 0], &[2, 20, 0, 1, 0, 0]];
    let made = |(name, call, expected)| Specimen { name, call, expected };
    [
        (
            "one choice for all atoms",
            judge(NO_TRIGGER, vec![alternative(&[[0, 0]], &apart)], plan_words(&lines)),
            [12, 0, 0, 0],
        ),
        (
            "one token serves trigger and two names",
            judge([0, 0], vec![alternative(&[[0, 0], [0, 0]], &[])], one_token(1)),
            [0, 1, 0, 0],
        ),
        (
            "right comes first",
            judge([0, 0], vec![alternative(&[], &[&[1, 0, 0, 0, 0, N]])], one_token(1)),
            [12, 0, 0, 0],
        ),
        (
            "a later alternative is met",
            judge([0, 0], vec![alternative(&[], &[never]), alternative(&[], &[])], one_token(1)),
            [0, 1, 0, 0],
        ),
        (
            "during has no shared end",
            Call::JudgeSheet(
                relation(&[[1, 1]], 1 << 8),
                plan_words(&vec![vec![[1, 10], [0, 10]], vec![[0, 5], [1, 15]]]),
            ),
            [12, 0, 1, 0],
        ),
    ]
    .map(made)
    .into()
}

/// Lines that end together, or don't.
fn ends() -> Vec<Specimen> {
    let e = |lines| Call::Judge(E.to_vec(), plan_words(&lines));
    let only_line_0 = plan_words(&vec![vec![[0, 5]], vec![]]);
    let made = |(name, call, expected)| Specimen { name, call, expected };
    [
        ("line 0 is empty", e(vec![vec![], vec![[0, 5]]]), [18, 1, 0, 0]),
        ("line 1 is empty", e(vec![vec![[0, 5]], vec![]]), [18, 1, 0, 0]),
        ("a later line's 8 first", e(vec![vec![[0, 5]], vec![[0, 10], [2, 1]]]), [8, 1, 1, 0]),
        ("line 1 ends later", e(vec![vec![[0, 5]], vec![[0, 6]]]), [18, 1, 0, 0]),
        ("line 1 ends earlier", e(vec![vec![[0, 5]], vec![[0, 4]]]), [18, 1, 0, 0]),
        ("both end at 5", e(vec![vec![[0, 5]]; 2]), [0, 0, 0, 0]),
        ("18 for a sheet", Call::JudgeSheet(E_SHEET.to_vec(), only_line_0), [18, 1, 0, 0]),
    ]
    .map(made)
    .into()
}

/// The earliest times of one rule's first alternative, over one variable with
/// one value that lasts `least` or more.
fn earliest() -> Vec<Specimen> {
    let first = |least, trigger, names: &[[u32; 2]], tests: &[&[u32]]| {
        let mut draft = Draft::new(Kind::Book, vec![vec![[least, N, 1]]]);
        draft.rule(trigger, vec![alternative(names, tests)]);
        draft.words()
    };
    let shows = |book: Vec<u32>, times: &[u64]| Call::Earliest(book, 0, times.to_vec());
    let free = |names: &[[u32; 2]], tests: &[&[u32]], times: &[u64]| {
        shows(first(1, NO_TRIGGER, names, tests), times)
    };
    let one: &[[u32; 2]] = &[[0, 0]];
    let far: [&[u32]; 3] = [&[1, 1, 0, 2, LAST, N], &[1, 2, 0, 3, LAST, N], &[1, 3, 0, 4, LAST, N]];
    let tick = u64::from(LAST);
    let day: Vec<u64> = [0, 1, 2, 3, 4, 5, 6, 7, 7].map(|n| n * tick).into();
    let both: [&[u32]; 2] = [&[0, 1, 0, 2, 40, N], &[0, 1, 0, 2, 0, 30]];
    let made = |(name, call, expected)| Specimen { name, call, expected };
    [
        ("earliest of E", shows(E.to_vec(), &[0, 5, 0, 5, 5]), [0, 1, 0, 0]),
        ("no second alternative in E", Call::Earliest(E.to_vec(), 1, vec![]), [27, 0, 0, 0]),
        ("two time points apart", free(&[], &[&[2, 10, 2, 5, 0, N]], &[]), [0, 0, 0, 0]),
        ("no tokens, the plan's end alone", free(&[], &[&[2, 5, 2, 10, 5, 5]], &[0]), [0, 1, 0, 0]),
        (
            "a day after the last tick",
            free(one, &[&[2, LAST, 0, 1, 5, N]], &[tick + 5, tick + 6, tick + 6]),
            [0, 1, 0, 0],
        ),
        ("6 before time point 5", free(one, &[&[0, 1, 2, 5, 6, N]], &[]), [0, 0, 0, 0]),
        ("a name that no atom speaks of", free(one, &[], &[0, 1, 1]), [0, 1, 0, 0]),
        ("at least 40 and at most 30", free(&[[0, 0]; 2], &both, &[]), [0, 0, 0, 0]),
        (
            "times over 32 bits",
            shows(first(LAST, NO_TRIGGER, &[[0, 0]; 4], &far), &day),
            [0, 1, 0, 0],
        ),
        (
            "a trigger pulled up",
            shows(first(1, [0, 0], one, &[&[1, 1, 0, 0, 7, N]]), &[8, 9, 0, 1, 9]),
            [0, 1, 0, 0],
        ),
    ]
    .map(made)
    .into()
}
