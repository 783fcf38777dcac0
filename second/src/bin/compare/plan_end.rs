//! Bounds against the end of the plan.

use crate::both::Both;
use crate::part::Part;
use crate::tally::Door;
use second::generate::damage;
use second::generate::draft::plan_words;
use second::generate::plan_end::{case, without};
use second::generate::rng::Rng;
use second::layout::Kind;
use second::words::to_bytes;

/// Counts judgements of books with such bounds: 12 only where the same book
/// without them would have let the plan pass.
const END: Door = Door { name: "plan's end", kind: Kind::Book, answers: &[0, 12], placed: &[] };

pub const PART: Part = Part {
    name: "plan-end",
    doors: &[&END],
    specimens: |_| 0, // they stand with the base's
    fixed: |_| 0,
    random,
    cases: 20_000,
};

fn random(both: &mut Both, rng: &mut Rng) {
    let (draft, lines) = case(rng);
    let (book, plan) = (to_bytes(&draft.words()), to_bytes(&plan_words(&lines)));
    let answer = both.judge(&book, &plan);
    let free = both.judge(&to_bytes(&without(&draft).words()), &plan);
    if answer[0] == 0 || free[0] == 0 {
        both.note(&END, answer, &book);
    }
    for alternative in 0..2 {
        both.earliest(&book, alternative, 11);
    }
    if rng.percent(20) {
        let mut words = draft.words();
        damage::words(rng, &mut words);
        both.judge(&to_bytes(&words), &plan);
    }
}
