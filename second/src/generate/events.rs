//! Lists of events: broken where a reader may not look, and as long as can be.

use super::draft::{Draft, Lines, Plan};
use super::rng::Rng;
use crate::layout::{Kind, LAST, N};

/// Where the events and actions of a list begin, and the words of an action.
struct Parts {
    events: Vec<usize>,
    actions: Vec<usize>,
    width: usize,
}

/// Of a list that has the form of one.
fn parts(list: &[u32]) -> Parts {
    let width = if list[0] == 2 { 4 } else { 3 };
    let mut parts = Parts { events: Vec::new(), actions: Vec::new(), width };
    let mut at = 3;
    while at < list.len() {
        parts.events.push(at);
        let actions = list[at + 1] as usize;
        parts.actions.extend((0..actions).map(|i| at + 2 + width * i));
        at += 2 + width * actions;
    }
    parts
}

/// Breaks a list that was written, in one of the ways that stay near to one, or
/// changes a time so that it is the list of another plan. An empty one gets an
/// event.
pub fn damage(rng: &mut Rng, list: &mut Vec<u32>) {
    let Parts { events, actions, width } = parts(list);
    if events.is_empty() {
        list[2] = 1;
        list.extend([0, rng.below(2)]);
        list[1] = list.len() as u32;
        return;
    }
    let (event, action) = (rng.pick(&events), rng.pick(&actions));
    match rng.below(13) {
        // A delay: another plan, if its durations may be.
        0 | 1 => list[event] = list[event].wrapping_add(rng.pick(&[1, 2, 7, N])),
        2 => list[event] = rng.pick(&[0, 1, LAST, N, N - 5]),
        3 => list[event + 1] = rng.pick(&[0, 1, list[event + 1] + 1, N, 1_431_655_766, 1 << 30]),
        // An action's line, value, kind or job.
        4 => list[action] = rng.pick(&[0, 1, list[action] + 1, N]),
        5 => list[action + 1] = rng.pick(&[0, 1, list[action + 1] + 1, N]),
        6 => list[action + 2] = rng.pick(&[0, 1, 2, N]),
        7 => list[action + width - 1] ^= 1,
        // Two neighbouring actions, turned.
        8 => (0..width).for_each(|i| {
            let next = (action + width + i).min(list.len() - 1);
            list.swap(action + i, next);
        }),
        // An action less or twice.
        9 => drop(list.drain(action..action + width)),
        10 => {
            let again = list[action..action + width].to_vec();
            list.splice(action..action, again);
            list[event + 1] += 1;
        }
        // One event in two: the second begins with a delay of its own.
        11 => {
            let cut = action + width;
            list.splice(cut..cut, [rng.below(2), 1]);
            list[2] += 1;
        }
        _ => list[2] = list[2].wrapping_add(rng.pick(&[1, N])),
    }
    if rng.percent(80) {
        list[1] = list.len() as u32;
    }
}

fn free(variables: usize) -> Draft {
    Draft::new(Kind::Book, vec![vec![[1, N, 1]]; variables])
}

/// Lines whose starts and ends fall on different times, but the first and last.
fn staggered(lines: usize, tokens: usize) -> Lines {
    let mut out: Lines = Vec::new();
    let most = tokens.div_ceil(lines);
    let end = (lines * (most + 1)) as u32;
    for line in 0..lines {
        let count = tokens / lines + usize::from(line < tokens % lines);
        let mut own = vec![[0, lines as u32]; count];
        own[0][1] = 1 + line as u32;
        let before: u32 = own[..count - 1].iter().map(|token| token[1]).sum();
        own[count - 1][1] = end - before;
        out.push(own);
    }
    out
}

fn jobs(lines: &Lines) -> Vec<Vec<u32>> {
    lines.iter().map(|line| (0..line.len() as u32).map(|i| N - i).collect()).collect()
}

/// A book, and the plan of an edition whose list is the longest.
pub fn longest(edition: u32) -> (Vec<u32>, Vec<u32>) {
    let (variables, tokens) = if edition == 2 { (11, 5_453) } else { (16, 8_174) };
    let lines = staggered(variables, tokens);
    let jobs = (edition == 2).then(|| jobs(&lines));
    (free(variables).words(), Plan { lines, jobs }.words())
}

/// A book, and a list of edition 2 whose plan would have a token too many. Its
/// sister without jobs is the list of a plan.
pub fn too_long() -> (Vec<u32>, Vec<u32>) {
    let lines = staggered(16, 5_450);
    let plan = Plan { jobs: Some(jobs(&lines)), lines };
    (free(16).words(), written(&plan))
}

/// The list of a plan that need not be good, event by event.
fn written(plan: &Plan) -> Vec<u32> {
    let mut next = vec![0; plan.lines.len()];
    let mut ends = vec![0; plan.lines.len()];
    let (mut out, mut time, mut before) = (vec![2, 0, 0], 0, 0);
    loop {
        let head = out.len();
        out.extend([time - before, 0]);
        for (line, own) in plan.lines.iter().enumerate() {
            if ends[line] != time {
                continue;
            }
            let at: usize = next[line];
            let mut action = |token: usize, kind: u32| {
                out.extend([line as u32, own[token][0], kind, plan.job(line, token)]);
                out[head + 1] += 1;
            };
            if at > 0 {
                action(at - 1, 0);
            }
            if at < own.len() {
                action(at, 1);
                ends[line] += own[at][1];
            }
            next[line] += 1;
        }
        out[2] += 1;
        before = time;
        match ends.iter().filter(|end| **end > time).min() {
            Some(soonest) => time = *soonest,
            None => break,
        }
    }
    out[1] = out.len() as u32;
    out
}

/// A list of edition 2 as one of edition 1.
pub fn without_jobs(list: &[u32]) -> Vec<u32> {
    let Parts { actions, .. } = parts(list);
    let jobs: Vec<usize> = actions.iter().map(|action| action + 3).collect();
    let mut at = 0;
    let mut out = list.to_vec();
    out.retain(|_| {
        at += 1;
        jobs.binary_search(&(at - 1)).is_err()
    });
    out[0] = 1;
    out[1] = out.len() as u32;
    out
}
