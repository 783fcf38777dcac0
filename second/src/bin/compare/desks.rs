//! A desk's own judgement.

use crate::both::Both;
use crate::part::Part;
use crate::proved::desks as proved;
use crate::tally::Door;
use second::desks::{judge_desk, specimens as list};
use second::generate::draft::{Draft, RuleDraft};
use second::generate::random::{pair, MEDIUM, SMALL};
use second::generate::rng::Rng;
use second::generate::{damage, extreme};
use second::layout::{Kind, N};
use second::words::{from_bytes, to_bytes};
use second::Answer;

const DESK: Door = Door {
    name: "judge desk",
    kind: Kind::Book,
    answers: &[0, 1, 2, 3, 4, 5, 6, 7, 8, 9, 10, 11, 12, 18, 19],
    placed: &[2, 4, 6],
};

pub const PART: Part =
    Part { name: "desks", doors: &[&DESK], specimens, fixed: |_| 0, random, cases: 60_000 };

impl Both {
    pub fn judge_desk(&mut self, book: &[u8], plan: &[u8], desks: &[u32], desk: u32) -> Answer {
        let proved = proved::judge_desk(book, plan, desks, desk);
        let second = judge_desk(&from_bytes(book), &from_bytes(plan), desks, desk);
        let what = format!("judge desk {desk}");
        let list = to_bytes(desks);
        self.same(&what, &proved, &second, &[("book", book), ("plan", plan), ("desks", &list)]);
        self.note(&DESK, second, book)
    }
}

fn specimens(both: &mut Both) -> u64 {
    let list = list();
    for s in &list {
        both.case = format!("specimen {}", s.name);
        let answer = both.judge_desk(&to_bytes(&s.book), &to_bytes(&s.plan), &s.desks, s.desk);
        both.specimen(s.name, answer, s.answer);
    }
    list.len() as u64
}

/// A list that has a desk for each rule, or just doesn't.
fn list_for(rng: &mut Rng, rules: usize) -> Vec<u32> {
    let mut desks: Vec<u32> = (0..rules).map(|_| rng.below(2)).collect();
    match rng.below(20) {
        0 => desks.push(rng.pick(&[0, 1, 2])),
        1 => drop(desks.pop()),
        2 if rules > 0 => desks[rng.index(rules)] = rng.pick(&[2, 3, N - 1, N]),
        3 => desks.resize(rng.pick(&[0, 1, 63, 64, 65, 100]), 0),
        _ => (),
    }
    desks
}

fn random(both: &mut Both, rng: &mut Rng) {
    let size = if rng.percent(5) { MEDIUM } else { SMALL };
    let (draft, mut plan) = match rng.percent(3) {
        true => {
            let draft = extreme::counts(rng, Kind::Book);
            let plan = extreme::long_plan(rng, &draft);
            (draft, plan)
        }
        false => {
            let (draft, plan) = pair(rng, Kind::Book, size);
            (draft, plan.words())
        }
    };
    let mut book = draft.words();
    let desks = list_for(rng, draft.rules.len());
    match rng.below(20) {
        0..=4 => damage::words(rng, &mut book),
        5..=8 => damage::words(rng, &mut plan),
        9 => damage::stretch(rng, &mut book),
        10 => damage::stretch(rng, &mut plan),
        _ => divided(both, rng, &draft, &plan, &desks),
    }
    let desk = rng.pick(&[0, 0, 0, 0, 0, 1, 1, 1, 1, 1, 2, N]);
    let (mut book, mut plan) = (to_bytes(&book), to_bytes(&plan));
    match rng.below(300) {
        0 => damage::bytes(rng, &mut book),
        1 => damage::bytes(rng, &mut plan),
        _ => (),
    }
    both.judge_desk(&book, &plan, &desks, desk);
}

/// Both desks together are the judge, and neither sees the other's rules.
fn divided(both: &mut Both, rng: &mut Rng, draft: &Draft, plan: &[u32], desks: &[u32]) {
    let (book, plan) = (to_bytes(&draft.words()), to_bytes(plan));
    let own = [0, 1].map(|desk| both.judge_desk(&book, &plan, desks, desk));
    if matches!(own[0][0], 1..=4 | 19) {
        return;
    }
    let whole = both.judge(&book, &plan);
    let inputs: &[(&str, &[u8])] = &[("book", &book), ("plan", &plan), ("desks", &to_bytes(desks))];
    if own.iter().all(|answer| answer[0] == 0) {
        let sum = [0, own[0][1] + own[1][1], 0, 0];
        both.expect("the counts of both desks", &whole, &sum, inputs);
    } else {
        let first = own.iter().filter(|answer| answer[0] != 0).min();
        both.expect("the first rule of both desks", &Some(&whole), &first, inputs);
    }
    // The other desk's rules may be any, and shift what stands behind them.
    let other = rng.below(2);
    let mut changed = draft.clone();
    let (donor, _) = pair(rng, Kind::Book, SMALL);
    let spare: Vec<RuleDraft> = donor.rules.into_iter().filter(|rule| fits(draft, rule)).collect();
    for (rule, desk) in changed.rules.iter_mut().zip(desks) {
        if *desk == other && !spare.is_empty() {
            *rule = spare[rng.index(spare.len())].clone();
        }
    }
    if !changed.fits() {
        return;
    }
    let changed = to_bytes(&changed.words());
    let again = both.judge_desk(&changed, &plan, desks, 1 - other);
    let inputs: &[(&str, &[u8])] = &[("book", &book), ("changed", &changed), ("plan", &plan)];
    both.expect("a desk undisturbed", &again, &own[1 - other as usize], inputs);
}

/// Whether a rule speaks only of values that the book has.
fn fits(draft: &Draft, rule: &RuleDraft) -> bool {
    let has = |name: &[u32; 2]| {
        let values = draft.variables.get(name[0] as usize);
        values.is_some_and(|values| (name[1] as usize) < values.len())
    };
    let trigger = rule.trigger[0] == N || has(&rule.trigger);
    trigger && rule.alternatives.iter().flat_map(|a| &a.names).all(has)
}
