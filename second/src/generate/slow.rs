//! Sound books and sheets that keep a judge busy, with plans of full lines.
//! Every rule is met by its last alternative, which asks nothing; those before
//! it fail, each in its own way, so that every trigger token has all of them
//! looked at. Line 0 has the triggers, lines 1 to 4 the names' tokens.

use super::draft::{end_together, plan_words, AlternativeDraft, Draft, Lines};
use crate::layout::{Kind, LAST, MAX_ALTERNATIVES, N};

pub struct Slow {
    pub name: &'static str,
    /// From a kind and the tokens of a line: a book or sheet, and a plan.
    pub make: fn(Kind, usize) -> (Vec<u32>, Vec<u32>),
}

/// For books and for sheets.
pub const BOTH: [Slow; 7] = [
    Slow { name: "two names push each other along", make: two_push },
    Slow { name: "four names push each other along", make: four_push },
    Slow { name: "names near the trigger, the last never fits", make: last_never },
    Slow { name: "the same, as many tests as may be", make: last_never_wide },
    Slow { name: "the last alternative only, one name", make: last_only },
    Slow { name: "the last alternative only, no name", make: visits },
    Slow { name: "names whose only token stands last", make: far_off },
];

/// For sheets alone, whose sets may say nothing about an order.
pub const SHEETS: [Slow; 4] = [
    Slow { name: "three names, sets that no order settles", make: |_, n| unordered(3, n) },
    Slow { name: "four names, sets that no order settles", make: |_, n| unordered(4, n) },
    Slow { name: "three names, each apart from the others", make: |_, n| apart(3, n) },
    Slow { name: "four names, each apart from the others", make: |_, n| apart(4, n) },
];

/// Token `right` starts later than token `left`.
fn later(kind: Kind, left: u32, right: u32) -> Vec<u32> {
    match kind {
        Kind::Book => vec![0, left, 0, right, 1, N],
        Kind::Sheet => vec![left, right, 0b1_1111],
    }
}

/// Token `right` doesn't start before token `left`.
fn not_earlier(kind: Kind, left: u32, right: u32) -> Vec<u32> {
    match kind {
        Kind::Book => vec![0, left, 0, right, 0, N],
        Kind::Sheet => vec![left, right, 0b1111_1111],
    }
}

/// A test that always holds.
fn always(kind: Kind) -> Vec<u32> {
    match kind {
        Kind::Book => vec![0, 0, 1, 0, 1, LAST],
        Kind::Sheet => vec![0, 0, 1 << 6],
    }
}

/// Names 1 to n, each of value 0 on its own line.
fn names(n: u32) -> Vec<[u32; 2]> {
    (1..=n).map(|line| [line, 0]).collect()
}

/// As many rules as fit, of as many alternatives as may be.
fn full(kind: Kind, fails: &AlternativeDraft) -> Vec<u32> {
    let last = AlternativeDraft::default();
    let mut draft = Draft::new(kind, vec![vec![[1, N, 3]; 2]; 5]);
    for size in (1..MAX_ALTERNATIVES as usize).rev() {
        let mut alternatives = vec![fails.clone(); size];
        alternatives.push(last.clone());
        while draft.fits() {
            draft.rule([0, 0], alternatives.clone());
        }
        draft.rules.pop();
    }
    draft.words()
}

/// Five lines of so many tokens of value 0.
fn lines(tokens: usize) -> Vec<u32> {
    plan_words(&vec![vec![[0, 10]; tokens]; 5])
}

fn two_push(kind: Kind, tokens: usize) -> (Vec<u32>, Vec<u32>) {
    let tests = vec![later(kind, 1, 2), not_earlier(kind, 2, 1)];
    (full(kind, &AlternativeDraft { names: names(2), tests }), lines(tokens))
}

/// Only the last two of many tests push, so that all are looked at each time.
fn four_push(kind: Kind, tokens: usize) -> (Vec<u32>, Vec<u32>) {
    let mut tests = vec![always(kind); kind.most_tests() as usize - 4];
    tests.extend((1..4).map(|name| later(kind, name, name + 1)));
    tests.push(not_earlier(kind, 4, 1));
    (full(kind, &AlternativeDraft { names: names(4), tests }), lines(tokens))
}

/// Each name follows the one before, the first the trigger, and the trigger
/// has to come after the last: every mark moves with every trigger token.
fn never_fits(kind: Kind, tests: Vec<Vec<u32>>, tokens: usize) -> (Vec<u32>, Vec<u32>) {
    let mut tests = tests;
    tests.extend((0..4).map(|name| not_earlier(kind, name, name + 1)));
    tests.push(later(kind, 4, 0));
    (full(kind, &AlternativeDraft { names: names(4), tests }), lines(tokens))
}

fn last_never(kind: Kind, tokens: usize) -> (Vec<u32>, Vec<u32>) {
    never_fits(kind, Vec::new(), tokens)
}

fn last_never_wide(kind: Kind, tokens: usize) -> (Vec<u32>, Vec<u32>) {
    never_fits(kind, vec![always(kind); kind.most_tests() as usize - 5], tokens)
}

fn last_only(kind: Kind, tokens: usize) -> (Vec<u32>, Vec<u32>) {
    let tests = vec![not_earlier(kind, 0, 1), later(kind, 1, 0)];
    (full(kind, &AlternativeDraft { names: names(1), tests }), lines(tokens))
}

/// The most alternatives, and little to do in each.
fn visits(kind: Kind, tokens: usize) -> (Vec<u32>, Vec<u32>) {
    let tests = vec![later(kind, 0, 0)];
    (full(kind, &AlternativeDraft { names: Vec::new(), tests }), lines(tokens))
}

/// The names' only tokens have to be looked for along whole lines.
fn far_off(kind: Kind, tokens: usize) -> (Vec<u32>, Vec<u32>) {
    let tests = vec![later(kind, 2, 0)];
    let mut lines: Lines = vec![vec![[1, 10]; tokens]; 5];
    lines[0] = vec![[0, 10]; tokens];
    lines[1..].iter_mut().flat_map(|line| line.last_mut()).for_each(|token| token[0] = 0);
    (full(kind, &AlternativeDraft { names: names(2), tests }), plan_words(&lines))
}

/// One rule of one alternative, and one trigger token as long as the plan.
fn one(n: u32, tests: Vec<Vec<u32>>, tokens: usize) -> (Vec<u32>, Vec<u32>) {
    let mut draft = Draft::new(Kind::Sheet, vec![vec![[1, N, 3]; 2]; 5]);
    draft.rule([0, 0], vec![AlternativeDraft { names: names(n), tests }]);
    let mut lines: Lines = vec![vec![[0, 10]; tokens]; 5];
    lines[0].truncate(1);
    end_together(&mut lines);
    (draft.words(), plan_words(&lines))
}

/// The first name and the last overlap, one way or the other, which tokens that
/// stand side by side never do.
fn unordered(n: u32, tokens: usize) -> (Vec<u32>, Vec<u32>) {
    one(n, vec![vec![1, n, 1 << 2 | 1 << 10]], tokens)
}

/// Each name is before or after every one before it, and the last overlaps the
/// first, which it never does.
fn apart(n: u32, tokens: usize) -> (Vec<u32>, Vec<u32>) {
    let mut tests = Vec::new();
    for right in 2..=n {
        tests.extend((1..right).map(|left| vec![left, right, 1 << 0 | 1 << 12]));
    }
    tests.push(vec![1, n, 1 << 2 | 1 << 10]);
    one(n, tests, tokens)
}
