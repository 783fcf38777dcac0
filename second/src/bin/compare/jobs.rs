//! Jobs: tokens of three words, and atoms that ask for one job.

use crate::both::Both;
use crate::part::Part;
use crate::proved;
use crate::tally::Door;
use second::generate::damage;
use second::generate::draft::Plan;
use second::generate::jobs::{case, without, SLOW};
use second::generate::rng::Rng;
use second::layout::Kind;
use second::specimens::jobs::steps;
use second::words::to_bytes;

/// Counts judgements of books with such atoms: 12 only where the same book
/// without them would have let the plan pass.
const JOBS: Door = Door { name: "jobs", kind: Kind::Book, answers: &[0, 12], placed: &[] };

pub const PART: Part =
    Part { name: "jobs", doors: &[&JOBS], specimens, fixed: busy, random, cases: 30_000 };

/// Steps on words of each edition; the others stand with the base's.
fn specimens(both: &mut Both) -> u64 {
    let list = steps();
    for step in &list {
        both.case = format!("specimen {}", step.name);
        both.step(&to_bytes(&step.words), step.at);
        let given = proved::step(&step.words, step.at);
        let seen = (given.value, given.end, given.job);
        match step.gives {
            Some(s) => both.expect("the token", &seen, &(s.value, s.end.into(), s.job), &[]),
            None => both.expect("no more", &given.more, &false, &[]),
        }
        println!(
            "specimen step, {}: {}",
            step.name,
            if given.more { "a token" } else { "no more" }
        );
    }
    list.len() as u64
}

/// What keeps a judge busy, on short lines.
fn busy(both: &mut Both) -> u64 {
    for (row, slow) in &SLOW {
        for tokens in [1, 2, 3, 6, 20] {
            both.case = format!("row {row}, lines of {tokens}");
            let (book, plan) = (slow.make)(Kind::Book, tokens);
            both.judge(&to_bytes(&book), &to_bytes(&plan));
        }
    }
    5 * SLOW.len() as u64
}

fn random(both: &mut Both, rng: &mut Rng) {
    let (draft, plan) = case(rng);
    let (book, words) = (to_bytes(&draft.words()), to_bytes(&plan.words()));
    let answer = both.judge(&book, &words);
    let free = both.judge(&to_bytes(&without(&draft).words()), &words);
    if answer[0] == 0 || (answer[0] == 12 && free[0] == 0) {
        both.note(&JOBS, answer, &book);
    }
    // Edition 1 is job 0 throughout.
    let one = Plan { lines: plan.lines.clone(), jobs: None };
    let zero = Plan { lines: plan.lines.clone(), jobs: Some(vec![Vec::new(); plan.lines.len()]) };
    let (one, zero) = (to_bytes(&one.words()), to_bytes(&zero.words()));
    let (by_one, by_zero) = (both.judge(&book, &one), both.judge(&book, &zero));
    both.expect("job 0 in edition 2", &by_zero, &by_one, &[("book", &book), ("plan", &zero)]);
    both.read(&book, &words, rng.below(3), 20);
    let mut damaged = plan.words();
    match rng.below(3) {
        0 => damage::stretch(rng, &mut damaged),
        _ => damage::words(rng, &mut damaged),
    }
    both.judge(&book, &to_bytes(&damaged));
    both.read(&book, &to_bytes(&damaged), 0, 3);
}
