//! Jobs: kind 4, and plans of edition 2.

use super::plan_end::j;
use super::{Call, Specimen, EMPTY_PLAN, E_SHEET, SOUND};
use crate::layout::{LAST, N};
use crate::{Position, Seen};

/// One variable of one value, and a rule of two names without trigger.
fn two_names(atoms: [[u32; 6]; 2]) -> Vec<u32> {
    let book = [
        1, 43, 1, 14, 1, 16, 1, 19, 1, 23, 2, 27, 2, 31, 0, 1, 1, N, 1, N, 0, 0, 1, 0, 2, 0, 2, 0,
        0, 0, 0,
    ];
    [&book[..], &atoms.concat()].concat()
}

/// Job of 1 = job of 2, and 1 starts before 2.
pub fn j2() -> Vec<u32> {
    two_names([[4, 1, 4, 2, 0, 0], [0, 1, 0, 2, 1, N]])
}

pub fn all() -> Vec<Specimen> {
    let check = |atom| Call::Check(j(atom));
    let judge = |plan: &[u32]| Call::Judge(j2(), plan.to_vec());
    let empty = Call::JudgeSheet(E_SHEET.to_vec(), [&[2], &EMPTY_PLAN[1..]].concat());
    // Tied by jobs though no plan can join them: earliest takes that for met.
    let tied = Call::Earliest(j2(), 0, vec![0, 1, 1, 2, 2]);
    let alone = Call::Earliest(j([4, 1, 4, 1, 0, 0]), 0, vec![0, 1, 1]);
    let made = |(name, call, expected)| Specimen { name, call, expected };
    [
        ("job of 1 = job of 1", check([4, 1, 4, 1, 0, 0]), SOUND),
        ("kind 4 left only", check([4, 1, 0, 1, 0, 0]), [4, 5, 0, 2]),
        ("kind 4 right only", check([0, 1, 4, 1, 0, 0]), [4, 5, 0, 2]),
        ("kind 4 left only, argument 2", check([4, 2, 0, 1, 0, 0]), [4, 5, 0, 1]),
        ("job of a trigger that isn't there", check([4, 0, 4, 1, 0, 0]), [4, 5, 0, 1]),
        ("the same on the right", check([4, 1, 4, 0, 0, 0]), [4, 5, 0, 3]),
        ("jobs with lower 1", check([4, 1, 4, 1, 1, 1]), [4, 5, 0, 4]),
        ("jobs with upper N", check([4, 1, 4, 1, 0, N]), [4, 5, 0, 5]),
        ("jobs with upper at the last tick", check([4, 1, 4, 1, 0, LAST]), [4, 5, 0, 5]),
        ("kind 5", check([5, 1, 4, 1, 0, 0]), [4, 5, 0, 0]),
        ("kind 4 to the end of the plan", check([4, 1, 3, 0, 0, 0]), [4, 5, 0, 2]),
        ("the end of the plan to kind 4", check([3, 0, 4, 1, 0, 0]), [4, 5, 0, 2]),
        ("kind 4 to kind 5", check([4, 1, 5, 1, 0, 0]), [4, 5, 0, 2]),
        ("jobs 0 and N", judge(&[2, 11, 1, 0, 2, 0, 5, 0, 0, 5, N]), [12, 0, 0, 0]),
        ("jobs N and N", judge(&[2, 11, 1, 0, 2, 0, 5, N, 0, 5, N]), [0, 1, 0, 0]),
        ("edition 1 has job 0", judge(&[1, 9, 1, 0, 2, 0, 5, 0, 5]), [0, 1, 0, 0]),
        ("edition 3", judge(&[3, 9, 1, 0, 2, 0, 5, 0, 5]), [6, 0, 0, 0]),
        ("edition 0", judge(&[0, 9, 1, 0, 2, 0, 5, 0, 5]), [6, 0, 0, 0]),
        ("edition 2 of two words", judge(&[2, 9, 1, 0, 2, 0, 5, 0, 5]), [7, 0, 0, 0]),
        ("edition 1 of three", judge(&[1, 11, 1, 0, 2, 0, 5, 0, 0, 5, N]), [7, 0, 0, 0]),
        ("jobs 0, N and 0", judge(&[2, 14, 1, 0, 3, 0, 5, 0, 0, 5, N, 0, 5, 0]), [0, 1, 0, 0]),
        ("a sheet and an empty plan of edition 2", empty, [0, 0, 0, 0]),
        ("job atoms count as met", tied, [0, 1, 0, 0]),
        ("a job atom alone", alone, [0, 1, 0, 0]),
    ]
    .map(made)
    .into()
}

/// Words, a position, and what a step from there gives.
pub struct Step {
    pub name: &'static str,
    pub words: Vec<u32>,
    pub at: Position,
    pub gives: Option<Seen>,
}

pub fn steps() -> Vec<Step> {
    let at = |token, start| Position { line: 0, token, start };
    let token = |value, start, end, job| Some(Seen { value, start, end, job });
    let two = [2, 11, 1, 0, 2, 0, 5, 7, 4, 6, 7];
    let made =
        |(name, words, at, gives): (_, &[u32], _, _)| Step { name, words: words.into(), at, gives };
    [
        ("edition 2", &[2, 8, 1, 0, 1, 0, 5, 7][..], at(0, 0), token(0, 0, 5, 7)),
        ("edition 2 without the job", &[2, 8, 1, 0, 1, 0, 5], at(0, 0), None),
        ("edition 3", &[3, 8, 1, 0, 1, 0, 5], at(0, 0), token(0, 0, 5, 0)),
        ("edition 0", &[0, 8, 1, 0, 1, 0, 5], at(0, 0), token(0, 0, 5, 0)),
        ("edition N", &[N, 8, 1, 0, 1, 0, 5], at(0, 0), token(0, 0, 5, 0)),
        ("the second token", &two, at(1, 5), token(4, 5, 11, 7)),
        ("behind the second token", &two, at(2, 11), None),
        ("job N", &[2, 8, 1, 0, 1, 0, 5, N], at(0, 0), token(0, 0, 5, N)),
    ]
    .map(made)
    .into()
}

#[cfg(test)]
mod tests {
    use super::*;

    #[test]
    fn steps_hand_out_the_job() {
        for Step { name, words, at, gives } in steps() {
            let given = crate::step(&words, at);
            assert_eq!(given.map(|(seen, _)| seen), gives, "{name}");
            let next = |seen: Seen| Position { token: at.token + 1, start: seen.end, ..at };
            assert_eq!(given.map(|(_, next)| next), gives.map(next), "{name}");
        }
    }
}
