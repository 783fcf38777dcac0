//! Rules that ask for a distance to the end of the plan, with plans whose end
//! makes the difference.

use super::draft::{alternative, AlternativeDraft, Draft, Lines, NO_TRIGGER};
use super::rng::Rng;
use crate::layout::{Kind, LAST, N};

/// Where the plan ends, from the empty one to the last tick.
fn end(rng: &mut Rng) -> u32 {
    match rng.below(8) {
        0 => 0,
        1 => 1,
        2 => rng.pick(&[LAST - 1, LAST]),
        _ => rng.from(1, 30),
    }
}

/// A line of tokens that ends there.
fn line(rng: &mut Rng, end: u32) -> Vec<[u32; 2]> {
    let mut tokens = Vec::new();
    let mut time = 0;
    while time < end {
        let left = end - time;
        let duration = if rng.percent(25) { left } else { rng.from(1, left.min(9)) };
        // The last of eight takes what is left.
        let duration = if tokens.len() == 7 { left } else { duration };
        tokens.push([rng.below(2), duration]);
        time += duration;
    }
    tokens
}

/// Some term with the time that it has for a token of the line.
fn term(rng: &mut Rng, line: &[[u32; 2]], token: Option<u32>) -> (u32, u32, i64) {
    let ends: u32 = line.iter().map(|t| t[1]).sum();
    let at = rng.index(line.len() + 1);
    let start: u32 = line[..at].iter().map(|t| t[1]).sum();
    match (rng.below(4), token) {
        (0, Some(token)) => (0, token, i64::from(start)),
        (1, Some(token)) => (1, token, i64::from(start)),
        (2, _) => (3, 0, i64::from(ends)),
        _ => {
            let point = rng.pick(&[0, 1, start, ends, LAST.min(ends + 3), LAST]);
            (2, point, i64::from(point))
        }
    }
}

/// An atom between the end of the plan and some term, with bounds around the
/// distance.
fn atom(rng: &mut Rng, line: &[[u32; 2]], token: Option<u32>) -> Vec<u32> {
    let ends: u32 = line.iter().map(|t| t[1]).sum();
    let (mut left, mut right) = (term(rng, line, token), (3, 0, i64::from(ends)));
    if rng.percent(20) {
        std::mem::swap(&mut left, &mut right);
    }
    let near = (right.2 - left.2).clamp(0, i64::from(LAST)) as u32;
    let (lower, upper) = rng.pick(&[
        (0, N),
        (near, near),
        (near, N),
        (LAST.min(near + 1), N),
        (0, near),
        (0, near.saturating_sub(1)),
        (near.saturating_sub(2), LAST.min(near + 2)),
        (0, LAST),
        (LAST, LAST),
    ]);
    vec![left.0, left.1, right.0, right.1, lower, upper]
}

/// A book of one or two variables and a plan whose lines end together.
pub fn case(rng: &mut Rng) -> (Draft, Lines) {
    let variables = rng.from(1, 2);
    let mut draft = Draft::new(Kind::Book, vec![vec![[1, N, 3]; 2]; variables as usize]);
    let end = end(rng);
    let lines: Lines = (0..variables).map(|_| line(rng, end)).collect();
    for _ in 0..rng.from(1, 2) {
        let trigger = rng.pick(&[NO_TRIGGER, [0, 0], [variables - 1, 1]]);
        let named = rng.percent(60);
        let can: &[u32] = match (trigger == NO_TRIGGER, named) {
            (true, false) => &[],
            (true, true) => &[1],
            (false, false) => &[0],
            (false, true) => &[0, 1],
        };
        let mut alternatives = Vec::new();
        for _ in 0..rng.from(1, 2) {
            let names: &[[u32; 2]] =
                if named { &[[rng.below(variables), rng.below(2)]] } else { &[] };
            let mut one: AlternativeDraft = alternative(names, &[]);
            for _ in 0..rng.from(1, 2) {
                let token = if can.is_empty() { None } else { Some(rng.pick(can)) };
                one.tests.push(atom(rng, &lines[0], token));
            }
            alternatives.push(one);
        }
        draft.rule(trigger, alternatives);
    }
    (draft, lines)
}

/// The book without the atoms that speak of the end of the plan.
pub fn without(draft: &Draft) -> Draft {
    let mut out = draft.clone();
    for one in out.rules.iter_mut().flat_map(|rule| &mut rule.alternatives) {
        one.tests.retain(|t| t[0] != 3 && t[2] != 3);
    }
    out
}
