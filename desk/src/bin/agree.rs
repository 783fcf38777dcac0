//! agree [cases]: on generated cases, the words that the desk's side can read are
//! those that the proved library doesn't refuse, and where a rule isn't met the
//! explanation is of the rule and trigger token that the library names.

#[path = "tteok/proved.rs"]
mod proved;

use desk::answer::Answer;
use desk::model::Kind;
use desk::trial::brute;
use desk::trial::generate::{self, damaged, Rng, SMALL};
use desk::words::to_bytes;
use desk::{decode, encode};
use std::process::ExitCode;

const CASES: u64 = 60_000;

fn judge(kind: Kind, book: &[u32], plan: &[u32]) -> Answer {
    let (book, plan) = (to_bytes(book), to_bytes(plan));
    match kind {
        Kind::Book => proved::judge(&book, &plan),
        Kind::Sheet => proved::judge_sheet(&book, &plan),
    }
}

/// What differs in a case, and the number that the library gave.
fn case(number: u64) -> Result<u32, String> {
    let mut rng = Rng::new(77, number);
    let kind = rng.pick(&[Kind::Book, Kind::Sheet]);
    let house = generate::house(&mut rng, SMALL, false);
    let rules = generate::rules(&mut rng, kind, house, SMALL);
    let plan = generate::plan(&mut rng, &rules.house, SMALL);
    let (book, words) = (encode::rules(&rules), encode::plan(&plan));

    let other = damaged(&mut rng, &book);
    let answer = judge(kind, &other, &[]);
    // A sound book gets as far as the plan, which has no words.
    let sound = decode::rules(&other).is_some_and(|rules| rules.kind == kind);
    if sound != (answer[0] == 5) {
        return Err(format!("a {} gets {answer:?}: {other:?}", kind.word()));
    }
    let other = damaged(&mut rng, &words);
    let answer = judge(kind, &book, &other);
    let lines = rules.house.timelines.len();
    let read = decode::plan(&other).is_some_and(|plan| plan.lines.len() == lines);
    if read == (5..=7).contains(&answer[0]) {
        return Err(format!("a plan gets {answer:?}: {other:?}"));
    }
    let answer = judge(kind, &book, &words);
    let unmet = brute::unmet(&rules, &plan);
    let agreed = match (answer, unmet.first()) {
        ([12, rule, token, 0], Some((r, t))) => (rule, token) == (*r as u32, t.token as u32),
        ([0, ..], None) | ([18, ..], _) => true,
        _ => false,
    };
    match agreed {
        true => Ok(answer[0]),
        false => Err(format!("{answer:?}, but unmet is {:?}", unmet.first())),
    }
}

fn main() -> ExitCode {
    let cases = std::env::args().nth(1).and_then(|word| word.parse().ok()).unwrap_or(CASES);
    let mut seen = [0; 3];
    for number in 0..cases {
        match case(number) {
            Ok(answer) => seen[[0, 12, 18].iter().position(|n| *n == answer).unwrap_or(0)] += 1,
            Err(says) => {
                println!("case {number}: {says}");
                return ExitCode::FAILURE;
            }
        }
    }
    println!("{cases} cases agree: {} accepted, {} got 12, {} got 18", seen[0], seen[1], seen[2]);
    ExitCode::SUCCESS
}
