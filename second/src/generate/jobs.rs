//! Rules that tie tokens by their jobs.

use super::draft::{
    end_together, plan_with_jobs, AlternativeDraft, Draft, Lines, Plan, NO_TRIGGER,
};
use super::random::{pair, SMALL};
use super::rng::Rng;
use super::slow::Slow;
use crate::layout::{Kind, N};

/// "Job of left = job of right".
fn tie(left: u32, right: u32) -> Vec<u32> {
    vec![4, left, 4, right, 0, 0]
}

/// A book whose alternatives tie some tokens, and a plan of edition 2 with few
/// jobs, so that ties hold and fail.
pub fn case(rng: &mut Rng) -> (Draft, Plan) {
    let (mut draft, mut plan) = pair(rng, Kind::Book, SMALL);
    let few = [0, N, 1, 5];
    let some = rng.pick(&[1, 2, 3, 4, 4, 4]);
    let mut job = || rng.pick(&few[..some]);
    plan.jobs = Some(plan.lines.iter().map(|l| l.iter().map(|_| job()).collect()).collect());
    for rule in &mut draft.rules {
        let first = u32::from(rule.trigger == NO_TRIGGER);
        for one in &mut rule.alternatives {
            let last = one.names.len() as u32;
            // Other tests would mostly decide before the jobs do.
            if rng.percent(70) {
                one.tests.retain(|test| test[0] == 4 || (test[4] == 0 && test[5] == N));
            }
            for _ in 0..if last < first { 0 } else { rng.pick(&[0, 1, 2, 2, 3]) } {
                let (left, right) = (rng.from(first, last), rng.from(first, last));
                // A token has its own job, so another is more telling.
                let right = if left == right { rng.from(first, last) } else { right };
                one.tests.insert(0, tie(left, right));
            }
        }
    }
    (draft, plan)
}

/// The book without the atoms that speak of jobs.
pub fn without(draft: &Draft) -> Draft {
    let mut out = draft.clone();
    for one in out.rules.iter_mut().flat_map(|rule| &mut rule.alternatives) {
        one.tests.retain(|test| test[0] != 4);
    }
    out
}

/// What keeps a judge busy, by row of the benchmark. All make books.
pub const SLOW: [(&str, Slow); 3] = [
    ("h", Slow { name: "a name of the trigger's job", make: |_, n| of_the_trigger(n) }),
    (
        "i",
        Slow { name: "two names of one job, every job once on each line", make: |_, n| one_job(n) },
    ),
    ("j", Slow { name: "four names in two pairs", make: |_, n| two_pairs(n) }),
];

/// Lines of so many tokens of length 10, each with jobs of its own.
fn lines(number: usize, tokens: usize) -> (Lines, Vec<Vec<u32>>) {
    (vec![vec![[0, 10]; tokens]; number], vec![(0..tokens as u32).collect(); number])
}

fn draft(variables: usize) -> Draft {
    Draft::new(Kind::Book, vec![vec![[1, N, 1]]; variables])
}

/// Each trigger token has one token of its job on the other line, where the
/// jobs go the other way.
fn of_the_trigger(tokens: usize) -> (Vec<u32>, Vec<u32>) {
    let mut draft = draft(2);
    draft.rule([0, 0], vec![AlternativeDraft { names: vec![[1, 0]], tests: vec![tie(0, 1)] }]);
    let (lines, mut jobs) = lines(2, tokens);
    jobs[1].reverse();
    (draft.words(), plan_with_jobs(&lines, &jobs))
}

/// The second name has to come after the first, and the tokens of one job stand
/// side by side: no two go together, for any trigger token. The second
/// alternative asks nothing.
fn one_job(tokens: usize) -> (Vec<u32>, Vec<u32>) {
    let mut draft = draft(3);
    let tests = vec![tie(1, 2), vec![1, 1, 0, 2, 0, N]];
    let never = AlternativeDraft { names: vec![[1, 0], [2, 0]], tests };
    draft.rule([0, 0], vec![never, AlternativeDraft::default()]);
    let (lines, jobs) = lines(3, tokens);
    (draft.words(), plan_with_jobs(&lines, &jobs))
}

/// One trigger token as long as the plan. The first pair goes together for
/// every job, the second for none.
fn two_pairs(tokens: usize) -> (Vec<u32>, Vec<u32>) {
    let mut draft = draft(5);
    let names = (1..=4).map(|line| [line, 0]).collect();
    let tests = vec![tie(1, 2), tie(3, 4), vec![1, 3, 0, 4, 0, N]];
    draft.rule([0, 0], vec![AlternativeDraft { names, tests }]);
    let (mut lines, jobs) = lines(5, tokens);
    lines[0].truncate(1);
    end_together(&mut lines);
    (draft.words(), plan_with_jobs(&lines, &jobs))
}
