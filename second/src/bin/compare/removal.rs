//! Rules taken out of a book.

use crate::both::Both;
use crate::part::Part;
use crate::proved::removal as proved;
use crate::tally::Door;
use second::generate::draft::Draft;
use second::generate::random::{pair, Size, LARGE, MEDIUM, SMALL};
use second::generate::rng::Rng;
use second::generate::{damage, extreme, load};
use second::layout::{Kind, N};
use second::removal::{remove_rules, specimens as list, Q};
use second::specimens::{with, E};
use second::words::to_bytes;
use second::Answer;

const REMOVE: Door = Door {
    name: "remove rules",
    kind: Kind::Book,
    answers: &[0, 1, 2, 3, 4, 19, 24],
    placed: &[2, 4],
};

pub const PART: Part = Part {
    name: "removal",
    doors: &[&REMOVE],
    specimens,
    fixed: every_place,
    random,
    cases: 40_000,
};

/// The answer and both runs of words afterwards.
type Removed = (Answer, Vec<u32>, Vec<u32>);

impl Both {
    /// Also compares the whole runs, and that words past the new ends stay.
    pub fn remove_rules(&mut self, book: &[u32], desks: &[u32], list: &[u32]) -> Removed {
        let run = |remove: fn(&mut [u32], &mut [u32], &[u32]) -> Answer| {
            let (mut book, mut desks) = (book.to_vec(), desks.to_vec());
            let answer = remove(&mut book, &mut desks, list);
            (answer, book, desks)
        };
        let (proved, second) = (run(proved::remove_rules), run(remove_rules));
        let bytes = [book, desks, list].map(to_bytes);
        let inputs: &[(&str, &[u8])] =
            &[("book", &bytes[0]), ("desks", &bytes[1]), ("list", &bytes[2])];
        self.same("remove rules", &proved.0, &second.0, inputs);
        self.same("the book afterwards", &proved.1, &second.1, inputs);
        self.same("the desks afterwards", &proved.2, &second.2, inputs);
        let (words, rules) = match proved.0 {
            [0, words, rules, 0] => (words as usize, rules as usize),
            _ => (0, 0),
        };
        self.expect("words past the book", &&proved.1[words..], &&book[words..], inputs);
        self.expect("words past the desks", &&proved.2[rules..], &&desks[rules..], inputs);
        self.note(&REMOVE, second.0, &bytes[0]);
        second
    }
}

fn specimens(both: &mut Both) -> u64 {
    let list = list();
    for s in &list {
        both.case = format!("specimen {}", s.name);
        let (answer, book, desks) = both.remove_rules(&s.book, &s.desks, &s.list);
        both.expect("the book that the law expects", &book, &s.book_after, &[]);
        both.expect("the desks that it expects", &desks, &s.desks_after, &[]);
        both.specimen(s.name, answer, s.answer);
    }
    list.len() as u64
}

/// Every word of two books, replaced by every edge.
fn every_place(both: &mut Both) -> u64 {
    let mut number = 0;
    for (book, desks) in [(&E[..], &[1][..]), (&Q, &[1, 0])] {
        for at in 0..book.len() {
            for edge in damage::edges(book[at]) {
                both.case = format!("word {at} as {edge}");
                both.remove_rules(&with(book, at, edge), desks, &[0]);
                number += 1;
            }
        }
    }
    number
}

/// Rule numbers, mostly rising and in the book.
fn numbers(rng: &mut Rng, rules: usize) -> Vec<u32> {
    let share = rng.pick(&[0, 20, 50, 80, 100]);
    let mut list: Vec<u32> = (0..rules as u32).filter(|_| rng.percent(share)).collect();
    let len = list.len();
    match rng.below(16) {
        0 => list.push(rng.pick(&[rules as u32, rules as u32 + 1, 64, N])),
        1 if len > 0 => list.insert(rng.index(len), list[len - 1]),
        2 if len > 1 => list.swap(0, len - 1),
        3 if len > 0 => list[rng.index(len)] = rng.pick(&[0, rules as u32, N - 1, N]),
        4 if len > 0 => list.extend(list.clone()),
        _ => (),
    }
    list
}

fn size(rng: &mut Rng) -> Size {
    match rng.below(100) {
        0 => LARGE,
        1..=15 => MEDIUM,
        _ => SMALL,
    }
}

fn random(both: &mut Both, rng: &mut Rng) {
    let (mut book, rules) = match rng.below(100) {
        0 => (load::largest_book(), 64),
        1..=3 => {
            let draft = extreme::counts(rng, Kind::Book);
            (draft.words(), draft.rules.len())
        }
        _ => {
            let size = size(rng);
            let (draft, plan) = pair(rng, Kind::Book, size);
            kept(both, rng, &draft, &plan.words());
            (draft.words(), draft.rules.len())
        }
    };
    let mut desks: Vec<u32> = (0..rules).map(|_| rng.below(2)).collect();
    match rng.below(16) {
        0..=2 => damage::words(rng, &mut book),
        3 => damage::stretch(rng, &mut book),
        4 => desks.push(0),
        5 => drop(desks.pop()),
        6 if rules > 0 => desks[rng.index(rules)] = rng.pick(&[2, N]),
        _ => (),
    }
    let list = numbers(rng, rules);
    both.remove_rules(&book, &desks, &list);
}

/// A plan passes the shorter book exactly if it meets each kept rule: the answer
/// is that of the draft without the others.
fn kept(both: &mut Both, rng: &mut Rng, draft: &Draft, plan: &[u32]) {
    let gone: Vec<u32> = (0..draft.rules.len() as u32).filter(|_| rng.percent(50)).collect();
    let desks = vec![0; draft.rules.len()];
    let (answer, book, _) = both.remove_rules(&draft.words(), &desks, &gone);
    let mut left = draft.clone();
    gone.iter().rev().for_each(|rule| drop(left.rules.remove(*rule as usize)));
    let words = left.words();
    both.expect("the book of the kept rules", &&book[..answer[1] as usize], &&words[..], &[]);
    let (whole, plan) = (to_bytes(&draft.words()), to_bytes(plan));
    let shorter = both.judge(&to_bytes(&words), &plan);
    // Fewer rules are met by more plans, and count less.
    let before = both.judge(&whole, &plan);
    if before[0] == 0 {
        let fewer = shorter[0] == 0 && shorter[1] <= before[1];
        both.expect("a plan that passed", &fewer, &true, &[("book", &whole), ("plan", &plan)]);
    }
}
