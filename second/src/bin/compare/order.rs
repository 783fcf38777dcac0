//! Books that speak only of order.

use crate::both::Both;
use crate::part::Part;
use crate::proved::order as proved;
use crate::tally::Door;
use second::generate::order::{case, stretched};
use second::generate::random::{pair, SMALL};
use second::generate::rng::Rng;
use second::generate::{damage, extreme, load};
use second::layout::Kind;
use second::order::{judge_by_order, order_only, specimens as list};
use second::specimens::{with, E, P1, P2};
use second::translate;
use second::words::{from_bytes, to_bytes};
use second::Answer;

const PROFILE: Door =
    Door { name: "order only (1 is yes)", kind: Kind::Book, answers: &[0, 1], placed: &[] };
const BY_ORDER: Door = Door {
    name: "judge by order",
    kind: Kind::Book,
    answers: &[0, 1, 2, 3, 4, 5, 6, 7, 8, 9, 10, 11, 12, 18, 26],
    placed: &[2, 4, 6],
};

pub const PART: Part = Part {
    name: "order",
    doors: &[&PROFILE, &BY_ORDER],
    specimens,
    fixed: every_place,
    random,
    cases: 60_000,
};

impl Both {
    pub fn order_only(&mut self, book: &[u8]) -> bool {
        let (proved, second) = (proved::order_only(book), order_only(&from_bytes(book)));
        self.same("order only", &proved, &second, &[("book", book)]);
        self.note(&PROFILE, [u32::from(second), 0, 0, 0], book);
        second
    }

    /// Also asks whether the book is in the profile, and the judge about it.
    pub fn judge_by_order(&mut self, book: &[u8], plan: &[u8]) -> Answer {
        let proved = proved::judge_by_order(book, plan);
        let second = judge_by_order(&from_bytes(book), &from_bytes(plan));
        let inputs: &[(&str, &[u8])] = &[("book", book), ("plan", plan)];
        self.same("judge by order", &proved, &second, inputs);
        let main = self.judge(book, plan);
        match (self.order_only(book), main[0]) {
            (false, 0 | 5..) => self.expect("a book outside", &second, &[26, 0, 0, 0], inputs),
            _ => self.expect("the judge's answer", &second, &main, inputs),
        }
        self.note(&BY_ORDER, second, book)
    }
}

fn specimens(both: &mut Both) -> u64 {
    let list = list();
    for s in &list {
        both.case = format!("specimen {}", s.name);
        let (book, plan) = (to_bytes(&s.book), to_bytes(&s.plan));
        let yes = both.order_only(&book);
        both.expect("the yes or no", &yes, &s.order_only, &[]);
        let answer = both.judge_by_order(&book, &plan);
        both.specimen(s.name, answer, s.answer);
    }
    list.len() as u64
}

/// Every word of E and of two plans, replaced by every edge.
fn every_place(both: &mut Both) -> u64 {
    let mut number = 0;
    for words in [&E[..], &P1, &P2] {
        for at in 0..words.len() {
            for edge in damage::edges(words[at]) {
                both.case = format!("word {at} as {edge}");
                let damaged = to_bytes(&with(words, at, edge));
                match words.len() == E.len() {
                    true => both.judge_by_order(&damaged, &to_bytes(&P1)),
                    false => both.judge_by_order(&to_bytes(&E), &damaged),
                };
                number += 1;
            }
        }
    }
    number
}

fn random(both: &mut Both, rng: &mut Rng) {
    match rng.below(100) {
        0 => return large(both, rng),
        1..=20 => return translated(both, rng),
        _ => (),
    }
    let (draft, plan) = case(rng);
    let (mut book, mut words) = (draft.words(), plan.words());
    match rng.below(20) {
        0..=3 => damage::words(rng, &mut book),
        4..=7 => damage::words(rng, &mut words),
        8 => damage::stretch(rng, &mut book),
        9 => damage::stretch(rng, &mut words),
        _ => {
            same_order(both, rng, &to_bytes(&book), &to_bytes(&words), &plan);
            return;
        }
    }
    let (mut book, mut words) = (to_bytes(&book), to_bytes(&words));
    match rng.below(100) {
        0 => damage::bytes(rng, &mut book),
        1 => damage::bytes(rng, &mut words),
        _ => (),
    }
    both.judge_by_order(&book, &words);
}

/// A plan at other times, in the same order, gets the same.
fn same_order(
    both: &mut Both,
    rng: &mut Rng,
    book: &[u8],
    words: &[u8],
    plan: &second::generate::draft::Plan,
) {
    let answer = both.judge_by_order(book, words);
    let other = to_bytes(&stretched(rng, plan).words());
    let again = both.judge_by_order(book, &other);
    let inputs: &[(&str, &[u8])] = &[("book", book), ("plan", words), ("other plan", &other)];
    both.expect("a plan of the same order", &again, &answer, inputs);
}

/// Every translated book is in the profile.
fn translated(both: &mut Both, rng: &mut Rng) {
    let (draft, plan) = pair(rng, Kind::Sheet, SMALL);
    let mut room = vec![0; 16_384];
    let answer = translate(&draft.words(), &mut room);
    if answer[0] == 0 {
        let book = to_bytes(&room[..answer[1] as usize]);
        let yes = both.order_only(&book);
        both.expect("a translated book", &yes, &true, &[("book", &book)]);
        both.judge_by_order(&book, &to_bytes(&plan.words()));
    }
}

/// The largest book of the profile with long plans.
fn large(both: &mut Both, rng: &mut Rng) {
    let (book, plan) = match rng.below(4) {
        0 => (load::largest_order_book(), load::staggered_plan()),
        1 => (load::largest_order_book(), load::largest_plan_with_jobs()),
        2 => (load::largest_book(), load::largest_plan()),
        _ => {
            let draft = extreme::counts(rng, Kind::Book);
            (draft.words(), extreme::long_plan(rng, &draft))
        }
    };
    both.judge_by_order(&to_bytes(&book), &to_bytes(&plan));
}
