//! Inputs that are as large, or need as much searching, as can be.

use super::draft::{
    alternative, end_together, plan_with_jobs, plan_words, AlternativeDraft, Draft, Lines,
};
use crate::layout::{Kind, LAST, N};

/// Sixteen variables of 32 values that all follow each other.
fn widest(kind: Kind) -> Draft {
    Draft::new(kind, vec![vec![[1, N, N]; 32]; 16])
}

/// 16,384 words. The triggers are all of value 31.
pub fn largest_book() -> Vec<u32> {
    book_of([&[0, 0, 0, 1, 0, N], &[1, 1, 1, 0, 5, LAST]])
}

/// The same with atoms that speak only of order.
pub fn largest_order_book() -> Vec<u32> {
    book_of([&[0, 0, 0, 1, 0, N], &[1, 1, 1, 0, 1, N]])
}

fn book_of(atoms: [&[u32]; 2]) -> Vec<u32> {
    let mut draft = widest(Kind::Book);
    let mut made = 0;
    for rule in 0..64 {
        let mut alternatives = Vec::new();
        for _ in 0..if rule < 44 { 5 } else { 4 } {
            let names = if made < 229 { 2 } else { 1 };
            let tests = if made < 248 { 7 } else { 6 };
            alternatives.push(AlternativeDraft {
                names: vec![[made % 16, made % 32]; names],
                tests: atoms.iter().cycle().take(tests).map(|a| a.to_vec()).collect(),
            });
            made += 1;
        }
        draft.rule([rule % 16, 31], alternatives);
    }
    draft.words()
}

/// Sixteen lines that end together, the first of them with a token more, and no
/// token of value 31.
fn sixteen_lines(count: u32, longer: u32) -> Lines {
    let line = |number: u32| {
        let count = if number < longer { count + 1 } else { count };
        (0..count).map(|i| [(i + number) % 31, 1 + i % 7]).collect()
    };
    let mut lines: Lines = (0..16).map(line).collect();
    end_together(&mut lines);
    lines
}

/// 16,383 words, the most that a plan of edition 1 can have.
pub fn largest_plan() -> Vec<u32> {
    plan_words(&sixteen_lines(510, 14))
}

/// As large, and no two lines have a start or end at one time but the first and
/// the last: as many ranks as there can be.
pub fn staggered_plan() -> Vec<u32> {
    let mut lines = sixteen_lines(510, 14);
    for (number, line) in (0u32..).zip(&mut lines) {
        line.iter_mut().for_each(|token| token[1] = 16);
        line[0][1] = 1 + number;
    }
    end_together(&mut lines);
    plan_words(&lines)
}

/// 16,382 words and 5,449 tokens, the most that 16 lines of edition 2 can have.
pub fn largest_plan_with_jobs() -> Vec<u32> {
    let lines = sixteen_lines(340, 9);
    let jobs: Vec<Vec<u32>> = lines.iter().map(|line| (0..line.len() as u32).collect()).collect();
    plan_with_jobs(&lines, &jobs)
}

/// Lines of 512 tokens of length 10, of values 0 and 1 in turn.
fn full_lines(lines: usize) -> Vec<u32> {
    plan_words(&vec![(0..512).map(|i| [i % 2, 10]).collect(); lines])
}

fn two_values(lines: usize) -> Draft {
    Draft::new(Kind::Book, vec![vec![[10, 10, 3]; 2]; lines])
}

/// 64 rules over 15 full lines. The first alternative never holds, the second
/// for one token.
pub fn one_name() -> (Vec<u32>, Vec<u32>) {
    rules_over_lines(&[&[0, 0, 0, 1, 5, 5]])
}

/// The same with atoms that speak only of order.
pub fn one_name_by_order() -> (Vec<u32>, Vec<u32>) {
    rules_over_lines(&[&[0, 0, 0, 1, 1, N], &[1, 1, 0, 0, 0, N]])
}

fn rules_over_lines(never: &[&[u32]]) -> (Vec<u32>, Vec<u32>) {
    let mut draft = two_values(15);
    for rule in 0..64 {
        let (line, value) = (rule % 15, rule / 15 % 2);
        let name = [(line + 1) % 15, value];
        let never = alternative(&[name], never);
        let beside = alternative(&[name], &[&[0, 0, 0, 1, 0, 0], &[1, 0, 1, 1, 0, 0]]);
        draft.rule([line, value], vec![never, beside]);
    }
    (draft.words(), full_lines(15))
}

/// One rule over three full lines; a pair of tokens meets it for each trigger,
/// and only the second token of the pair shows whether it does.
pub fn two_names() -> (Vec<u32>, Vec<u32>) {
    let mut draft = two_values(3);
    let tests: [&[u32]; 2] = [&[1, 1, 0, 2, 0, 0], &[0, 0, 1, 2, 20, 20]];
    draft.rule([0, 0], vec![alternative(&[[1, 0], [2, 1]], &tests)]);
    (draft.words(), full_lines(3))
}

/// One trigger as long as the plan, and one line for each name, with an atom that never holds
/// between the first name and the last. Free, every choice has to be tried;
/// chained, each name also has to come after the one before.
pub fn names(names: u32, tokens: usize, chained: bool) -> (Vec<u32>, Vec<u32>) {
    let mut draft = Draft::new(Kind::Book, vec![vec![[10, 10, 1]]; names as usize + 1]);
    draft.variables[0] = vec![[10, N, 1]];
    let mut one = AlternativeDraft::default();
    for name in 1..=names {
        one.names.push([name, 0]);
        one.tests.push(match chained && name > 1 {
            true => vec![1, name - 1, 0, name, 0, N],
            false => vec![2, 0, 0, name, 0, N],
        });
    }
    one.tests.push(vec![0, 1, 1, names, LAST, N]);
    draft.rule([0, 0], vec![one]);
    let mut lines: Lines = vec![vec![[0, 10]; tokens]; names as usize + 1];
    lines[0].truncate(1);
    end_together(&mut lines);
    (draft.words(), plan_words(&lines))
}

/// One trigger as long as the plan, and full lines for four names, each with
/// the value 1 only where `at` says.
fn four_names(at: fn(u32) -> bool) -> Vec<u32> {
    let line: Vec<[u32; 2]> = (0..512).map(|i| [u32::from(at(i)), 1]).collect();
    let mut lines = vec![line; 5];
    lines[0] = vec![[1, 512]];
    plan_words(&lines)
}

const FOUR_NAMES: [[u32; 2]; 4] = [[1, 1], [2, 1], [3, 1], [4, 1]];

/// Four names whose only tokens stand last on full lines, and an atom on the
/// last name alone that never holds, so that no bound between two names says it.
pub fn deepest() -> (Vec<u32>, Vec<u32>) {
    let mut draft = Draft::new(Kind::Book, vec![vec![[1, N, 3]; 2]; 5]);
    draft.rule([0, 1], vec![alternative(&FOUR_NAMES, &[&[0, 4, 1, 4, LAST, N]])]);
    (draft.words(), four_names(|i| i == 511))
}

/// Four names with tokens first and last on full lines. The last may stand
/// before or after the trigger, which leaves no room for either, and no end of
/// it is always before or always after one of the trigger's: so nothing can be
/// said before all are tried. The second rule is as deep for the translator:
/// the most constraints, each with the last relation alone.
pub fn deepest_sheet() -> (Vec<u32>, Vec<u32>) {
    let mut draft = Draft::new(Kind::Sheet, vec![vec![[1, N, 3]; 2]; 5]);
    draft.rule([0, 1], vec![alternative(&FOUR_NAMES, &[&[0, 4, 1 << 0 | 1 << 12]])]);
    let last: &[u32] = &[0, 1, 1 << 12];
    draft.rule([0, 1], vec![alternative(&FOUR_NAMES, &[last; 8])]);
    (draft.words(), four_names(|i| i == 0 || i == 511))
}

/// A sheet whose translation has 16,384 words and 888 alternatives.
pub fn largest_sheet() -> Vec<u32> {
    let mut draft = widest(Kind::Sheet);
    for rule in 0..64 {
        let name = [rule % 16, rule % 32];
        let mut alternatives = vec![alternative(&[name], &[&[0, 1, 8191]])];
        if rule < 56 {
            let names = if rule == 0 { 2 } else { 1 };
            alternatives.push(alternative(&vec![name; names], &[]));
        }
        draft.rule([rule % 16, 31], alternatives);
    }
    draft.words()
}

/// Tokens for each trigger and name of that sheet.
pub fn largest_sheet_plan() -> Vec<u32> {
    plan_words(&(0..16).map(|line| [line, line + 16, 31].map(|value| [value, 1]).into()).collect())
}
