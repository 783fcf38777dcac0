//! Random sound books and sheets, with plans that nearly fit.

use super::draft::{end, AlternativeDraft, Draft, Lines, Plan, NO_TRIGGER};
use super::rng::Rng;
use crate::layout::{Kind, LAST, N};
use crate::placed::Span;
use crate::sheet::relation;

/// How large the parts may get.
#[derive(Clone, Copy)]
pub struct Size {
    pub variables: u32,
    pub values: u32,
    pub tokens: u32,
    pub rules: u32,
    pub alternatives: u32,
    pub tests: u32,
    /// Most tokens that a judge without any cleverness would have to try.
    pub tries: u64,
}

pub const SMALL: Size =
    Size { variables: 3, values: 3, tokens: 6, rules: 3, alternatives: 3, tests: 3, tries: 2_000 };
pub const MEDIUM: Size = Size {
    variables: 6,
    values: 8,
    tokens: 40,
    rules: 8,
    alternatives: 6,
    tests: 8,
    tries: 30_000,
};
pub const LARGE: Size = Size {
    variables: 16,
    values: 32,
    tokens: 512,
    rules: 64,
    alternatives: 12,
    tests: 16,
    tries: 300_000,
};

/// A draft and a plan for it, of either edition, whose lines mostly end together.
pub fn pair(rng: &mut Rng, kind: Kind, size: Size) -> (Draft, Plan) {
    let mut draft = Draft::new(kind, variables(rng, size));
    let mut lines: Lines = draft.variables.iter().map(|v| line(rng, v, size.tokens)).collect();
    let edition_2 = rng.percent(40);
    // The words of a plan are limited too.
    let most = if edition_2 { 5_400 } else { 8_000 };
    while lines.iter().map(Vec::len).sum::<usize>() > most {
        lines.iter_mut().for_each(|l| l.truncate(l.len() / 2));
    }
    let together = rng.percent(85);
    if together {
        level(rng, &mut draft.variables, &mut lines);
    }
    let jobs = edition_2.then(|| jobs(rng, &lines));
    let mut plan = Plan { lines, jobs };
    let spans = spans(&plan);
    for _ in 0..rng.from(0, size.rules) {
        rule(rng, &mut draft, &spans, size);
        if !draft.fits() {
            draft.rules.pop();
            break;
        }
    }
    while tries(&draft, &plan.lines) > size.tries {
        plan.lines.iter_mut().for_each(|l| l.truncate(l.len() / 2));
        if together {
            level(rng, &mut draft.variables, &mut plan.lines);
        }
    }
    (draft, plan)
}

/// A job for each token, mostly one of a few.
fn jobs(rng: &mut Rng, lines: &Lines) -> Vec<Vec<u32>> {
    let few = [0, 1, N, rng.word()];
    let some = rng.from(1, 4) as usize;
    let mut job = || if rng.percent(90) { rng.pick(&few[..some]) } else { rng.below(6) };
    lines.iter().map(|line| line.iter().map(|_| job()).collect()).collect()
}

/// Makes the lines end together. In a line that ends early one token gets
/// longer: one whose value allows it, else the last, whose value then allows
/// it. A line without tokens gets one, unless there are none at all.
fn level(rng: &mut Rng, variables: &mut [Vec<[u32; 3]>], lines: &mut Lines) {
    if lines.iter().all(Vec::is_empty) {
        return;
    }
    for (values, line) in variables.iter().zip(lines.iter_mut()).filter(|(_, l)| l.is_empty()) {
        let value = rng.index(values.len());
        line.push([value as u32, values[value][0]]);
    }
    let latest = lines.iter().map(|line| end(line)).max().unwrap_or(0);
    for (values, line) in variables.iter_mut().zip(lines) {
        let missing = latest - end(line);
        let greatest = |[value, _]: [u32; 2]| values[value as usize][1];
        let can: Vec<usize> =
            (0..line.len()).filter(|&i| line[i][1] + missing <= greatest(line[i])).collect();
        let at = if can.is_empty() { line.len() - 1 } else { rng.pick(&can) };
        let [value, duration] = &mut line[at];
        *duration += missing;
        let greatest = &mut values[*value as usize][1];
        *greatest = (*greatest).max(*duration);
    }
}

fn variables(rng: &mut Rng, size: Size) -> Vec<Vec<[u32; 3]>> {
    let number = rng.from(1, size.variables);
    (0..number)
        .map(|_| {
            let values = rng.from(1, size.values);
            (0..values).map(|_| value(rng, values)).collect()
        })
        .collect()
}

fn value(rng: &mut Rng, values: u32) -> [u32; 3] {
    let least = match rng.below(40) {
        0 => LAST,
        1 => rng.from(1, LAST),
        _ => rng.from(1, 4),
    };
    let greatest = match rng.below(8) {
        0 => LAST,
        1 => least,
        2..=4 => N,
        _ => LAST.min(least + rng.from(0, 9)),
    };
    let mask = ((1u64 << values) - 1) as u32;
    let set = if rng.percent(50) { mask } else { (rng.word() | rng.word()) & mask };
    [least, greatest, set]
}

/// Walks from successor to successor; ends where there is none.
fn line(rng: &mut Rng, values: &[[u32; 3]], most: u32) -> Vec<[u32; 2]> {
    let count = rng.from(0, most);
    let mut tokens = Vec::new();
    let mut time = 0;
    let mut open = u32::MAX;
    for _ in 0..count {
        let can: Vec<u32> = (0..values.len() as u32).filter(|v| open >> v & 1 == 1).collect();
        if can.is_empty() {
            break;
        }
        let value = rng.pick(&can);
        let [least, greatest, successors] = values[value as usize];
        let left = LAST - time;
        let most = greatest.min(left);
        if least > most {
            break;
        }
        let duration = match rng.below(200) {
            0 => most,
            1 => rng.from(least, most),
            _ => rng.from(least, most.min(least + 6)),
        };
        tokens.push([value, duration]);
        time += duration;
        open = successors;
    }
    tokens
}

/// The tokens in time, with the value of each.
fn spans(plan: &Plan) -> Vec<Vec<(u32, Span)>> {
    let one = |(number, line): (usize, &Vec<[u32; 2]>)| {
        let mut start = 0;
        let place = |(token, &[value, duration]): (usize, &[u32; 2])| {
            let job = plan.job(number, token);
            let span = Span { start, end: start + duration, token: token as u32, job };
            start = span.end;
            (value, span)
        };
        line.iter().enumerate().map(place).collect()
    };
    plan.lines.iter().enumerate().map(one).collect()
}

/// A variable and value, and a token of them: mostly ones that the plan has.
fn anchor(rng: &mut Rng, draft: &Draft, spans: &[Vec<(u32, Span)>]) -> ([u32; 2], Span) {
    let variable = rng.index(spans.len());
    let line = &spans[variable];
    if line.is_empty() || rng.percent(6) {
        let value = rng.index(draft.variables[variable].len());
        return ([variable as u32, value as u32], Span::default());
    }
    let (value, span) = rng.pick(line);
    ([variable as u32, value], span)
}

/// What the tests of an alternative may speak of: the tokens chosen for the
/// trigger, if there is one, and the names, and the end of the plan.
struct Known {
    tokens: Vec<Option<Span>>,
    plan_end: u32,
}

fn rule(rng: &mut Rng, draft: &mut Draft, spans: &[Vec<(u32, Span)>], size: Size) {
    let plan_end = spans[0].last().map_or(0, |(_, span)| span.end);
    let (trigger, first) = match rng.percent(15) {
        true => (NO_TRIGGER, None),
        false => {
            let (trigger, span) = anchor(rng, draft, spans);
            (trigger, Some(span))
        }
    };
    // Where a trigger has many tokens, tight tests would fail for most of them.
    let loose = rng.percent(50);
    let mut alternatives = Vec::new();
    for _ in 0..rng.from(1, size.alternatives) {
        let mut alternative = AlternativeDraft::default();
        let mut known = Known { tokens: vec![first], plan_end };
        for _ in 0..rng.pick(&[0, 1, 1, 1, 2, 2, 3, 4]) {
            let (name, span) = anchor(rng, draft, spans);
            alternative.names.push(name);
            known.tokens.push(Some(span));
        }
        let most = size.tests.min(draft.kind.most_tests());
        for _ in 0..rng.from(0, most) {
            let test = match draft.kind {
                Kind::Book => Some(atom(rng, &known, loose)),
                Kind::Sheet => constraint(rng, &known, loose),
            };
            alternative.tests.extend(test);
        }
        alternatives.push(alternative);
    }
    draft.rule(trigger, alternatives);
}

/// A token number that may stand in a test.
fn token(rng: &mut Rng, known: &Known) -> Option<(u32, Span)> {
    let tokens = &known.tokens;
    let can: Vec<u32> =
        (0..tokens.len() as u32).filter(|&t| tokens[t as usize].is_some()).collect();
    if can.is_empty() {
        return None;
    }
    let token = rng.pick(&can);
    tokens[token as usize].map(|span| (token, span))
}

/// Kind, argument and the time it has in the chosen tokens.
fn term(rng: &mut Rng, known: &Known) -> (u32, u32, i64) {
    let kind = rng.pick(&[0, 0, 0, 1, 1, 1, 2, 3]);
    match (kind, token(rng, known)) {
        (3, _) => (3, 0, i64::from(known.plan_end)),
        (0, Some((token, span))) => (0, token, i64::from(span.start)),
        (1, Some((token, span))) => (1, token, i64::from(span.end)),
        (_, near) => {
            let around = near.map_or(0, |(_, span)| span.start + rng.below(3));
            let point = rng.pick(&[0, 1, around, around, around, LAST - 1, LAST]).min(LAST);
            (2, point, i64::from(point))
        }
    }
}

/// Bounds that hold in the chosen tokens, or just fail to.
fn atom(rng: &mut Rng, known: &Known, loose: bool) -> Vec<u32> {
    if rng.percent(12) {
        if let Some(atom) = same_job(rng, known) {
            return atom;
        }
    }
    let (mut left, mut right) = (term(rng, known), term(rng, known));
    if right.2 < left.2 && rng.percent(85) {
        std::mem::swap(&mut left, &mut right);
    }
    let difference = right.2 - left.2;
    let near = difference.clamp(0, i64::from(LAST)) as u32;
    let more = LAST.min(near + rng.below(4));
    let less = near.saturating_sub(rng.below(4));
    let tight = [
        (near, near),
        (less, more),
        (near, N),
        (0, near),
        (LAST.min(near + 1), N),
        (0, near.saturating_sub(1)),
        (0, 0),
        (LAST, LAST),
        (near, LAST),
    ];
    let (lower, upper) = match loose && rng.percent(80) {
        true => rng.pick(&[(0, N), (0, LAST), (0, N), (0, LAST.min(near + 40))]),
        false => rng.pick(&tight),
    };
    vec![left.0, left.1, right.0, right.1, lower, upper]
}

/// Two tokens of one job, mostly ones whose jobs are equal.
fn same_job(rng: &mut Rng, known: &Known) -> Option<Vec<u32>> {
    let (left, mut right) = (token(rng, known)?, token(rng, known)?);
    for _ in 0..3 {
        if right.1.job != left.1.job || right.0 == left.0 {
            right = token(rng, known)?;
        }
    }
    Some(vec![4, left.0, 4, right.0, 0, 0])
}

/// A set with the relation of the chosen tokens, or just without it.
fn constraint(rng: &mut Rng, known: &Known, loose: bool) -> Option<Vec<u32>> {
    let (left, right) = (token(rng, known)?, token(rng, known)?);
    let times = |span: Span| (span.start, span.end);
    let here = 1 << relation(times(left.1), times(right.1));
    let some = rng.word() & rng.word() & 8191;
    let one = 1 << rng.below(13);
    let set = match rng.below(if loose { 12 } else { 8 }) {
        0..=2 => here,
        3 => here | one,
        4 => here | some,
        5 => (some | one) & !here,
        6 => one,
        7 => !here & 8191,
        _ => 8191,
    };
    // An empty set is a fault; every set may be the whole one.
    Some(vec![left.0, right.0, if set == 0 { 8191 } else { set }])
}

/// Tokens tried by a judge that goes through whole lines for every name.
fn tries(draft: &Draft, lines: &Lines) -> u64 {
    let line = |variable: u32| lines[variable as usize].len() as u64;
    let mut sum = 0;
    for rule in &draft.rules {
        let [variable, value] = rule.trigger;
        let triggers = match rule.trigger {
            NO_TRIGGER => 1,
            _ => lines[variable as usize].iter().filter(|t| t[0] == value).count() as u64,
        };
        for a in &rule.alternatives {
            sum += triggers * (1 + a.names.iter().map(|n| line(n[0])).product::<u64>());
        }
    }
    sum
}
