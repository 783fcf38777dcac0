//! Plans as events in time order, written and read.

use crate::both::{room, Both};
use crate::part::Part;
use crate::proved::events as proved;
use crate::tally::Door;
use second::events::{read_events, reading, write_events, writing, L};
use second::generate::draft::Draft;
use second::generate::random::{pair, LARGE, MEDIUM, SMALL};
use second::generate::rng::Rng;
use second::generate::{damage, events, extreme};
use second::layout::Kind;
use second::specimens::{with, E, P2, P2_JOBS};
use second::words::{from_bytes, to_bytes};
use second::Answer;

const WRITE: Door = Door {
    name: "write events",
    kind: Kind::Book,
    answers: &[0, 1, 2, 3, 4, 5, 6, 7, 8, 9, 10, 11, 18, 21],
    placed: &[2, 4, 6],
};
const READ: Door = Door {
    name: "read events",
    kind: Kind::Book,
    answers: &[0, 1, 2, 3, 4, 20, 21],
    placed: &[2, 4],
};

pub const PART: Part =
    Part { name: "events", doors: &[&WRITE, &READ], specimens, fixed, random, cases: 60_000 };

/// Words enough for the list of a plan: two words of it become at most eight.
fn list_room(plan: &[u32]) -> Vec<u32> {
    room((4 * plan.len() + 16).min(65_400))
}

/// Words enough for the plan of a list: a token becomes less, and the head has
/// at most 35.
fn plan_room(list: &[u32]) -> usize {
    (list.len() + 40).min(16_400)
}

impl Both {
    /// Compares answers and whole rooms, and that only the words written changed.
    fn filled(
        &self,
        what: &str,
        before: &[u32],
        proved: impl FnOnce(&mut [u32]) -> Answer,
        second: impl FnOnce(&mut [u32]) -> Answer,
        inputs: &[(&str, &[u8])],
    ) -> (Answer, Vec<u32>) {
        let (mut by_proved, mut by_second) = (before.to_vec(), before.to_vec());
        let (given, answer) = (proved(&mut by_proved), second(&mut by_second));
        let what = format!("{what} with room for {} words", before.len());
        self.same(&what, &given, &answer, inputs);
        self.same(&format!("the room of {what}"), &by_proved, &by_second, inputs);
        let written = if answer[0] == 0 { answer[1] as usize } else { 0 };
        self.expect("the rest of the room", &&by_proved[written..], &&before[written..], inputs);
        (answer, by_second)
    }

    pub fn write_events(&mut self, book: &[u8], plan: &[u8], before: &[u32]) -> (Answer, Vec<u32>) {
        let (answer, room) = self.filled(
            "write events",
            before,
            |room| proved::write_events(book, plan, room),
            |room| write_events(&from_bytes(book), &from_bytes(plan), room),
            &[("book", book), ("plan", plan)],
        );
        (self.note(&WRITE, answer, book), room)
    }

    pub fn read_events(&mut self, book: &[u8], list: &[u32], before: &[u32]) -> (Answer, Vec<u32>) {
        let (answer, room) = self.filled(
            "read events",
            before,
            |room| proved::read_events(book, list, room),
            |room| read_events(&from_bytes(book), list, room),
            &[("book", book), ("list", &to_bytes(list))],
        );
        (self.note(&READ, answer, book), room)
    }
}

fn specimens(both: &mut Both) -> u64 {
    let (written, read) = (writing(), reading());
    for s in &written {
        both.case = format!("specimen {}", s.name);
        let (book, plan) = (to_bytes(&s.book), to_bytes(&s.plan));
        let (answer, room) = both.write_events(&book, &plan, &s.room);
        both.expect("the list that the law expects", &room, &s.after, &[]);
        both.specimen(s.name, answer, s.answer);
    }
    for s in &read {
        both.case = format!("specimen {}", s.name);
        let (answer, room) = both.read_events(&to_bytes(&s.book), &s.list, &s.room);
        both.expect("the plan that the law expects", &room, &s.after, &[]);
        both.specimen(s.name, answer, s.answer);
    }
    (written.len() + read.len()) as u64
}

/// Every word of two lists, replaced by every edge; then the longest lists.
fn fixed(both: &mut Both) -> u64 {
    let e = to_bytes(&E);
    let mut jobs = vec![0; 70];
    let answer = write_events(&E, &P2_JOBS, &mut jobs);
    jobs.truncate(answer[1] as usize);
    let mut number = 0;
    for list in [&L[..], &jobs] {
        for at in 0..list.len() {
            for edge in damage::edges(list[at]) {
                both.case = format!("word {at} of a list as {edge}");
                both.read_events(&e, &with(list, at, edge), &room(30));
                number += 1;
            }
        }
    }
    for plan in [&P2[..], &P2_JOBS] {
        for at in 0..plan.len() {
            for edge in damage::edges(plan[at]) {
                both.case = format!("word {at} of a plan as {edge}");
                both.write_events(&e, &to_bytes(&with(plan, at, edge)), &room(70));
                number += 1;
            }
        }
    }
    number + longest(both)
}

fn longest(both: &mut Both) -> u64 {
    for edition in [1, 2] {
        both.case = format!("the longest list of edition {edition}");
        let (book, plan) = events::longest(edition);
        let book = to_bytes(&book);
        let list = there_and_back(both, &book, &plan).expect("a good plan");
        for words in [list.len() - 1, list.len()] {
            both.write_events(&book, &to_bytes(&plan), &room(words));
        }
    }
    both.case = "a plan that would be too long".to_string();
    let (book, list) = events::too_long();
    for list in [events::without_jobs(&list), list] {
        both.read_events(&to_bytes(&book), &list, &room(16_400));
    }
    4
}

/// Writing then reading gives the plan's words. The list, if there is one.
fn there_and_back(both: &mut Both, book: &[u8], plan: &[u32]) -> Option<Vec<u32>> {
    let bytes = to_bytes(plan);
    let (answer, mut list) = both.write_events(book, &bytes, &list_room(plan));
    if answer[0] != 0 {
        return None;
    }
    list.truncate(answer[1] as usize);
    let (answer, read) = both.read_events(book, &list, &room(plan_room(&list)));
    let inputs: &[(&str, &[u8])] = &[("book", book), ("plan", &bytes)];
    both.expect("reading what was written", &answer, &[0, plan.len() as u32, 0, 0], inputs);
    both.expect("the plan's words", &&read[..plan.len()], &plan, inputs);
    Some(list)
}

/// Reading then writing gives the list's words, where it is read.
fn back_and_there(both: &mut Both, book: &[u8], list: &[u32], words: usize) {
    let (answer, read) = both.read_events(book, list, &room(words));
    if answer[0] == 0 {
        let plan = to_bytes(&read[..answer[1] as usize]);
        let (answer, again) = both.write_events(book, &plan, &room(list.len() + 9));
        let (list, bytes) = (&list, to_bytes(list));
        let inputs: &[(&str, &[u8])] = &[("book", book), ("list", &bytes)];
        both.expect("writing what was read", &answer, &[0, list.len() as u32, 0, 0], inputs);
        both.expect("the list's words", &&again[..list.len()], &&list[..], inputs);
    }
}

fn drafted(rng: &mut Rng) -> (Draft, Vec<u32>) {
    match rng.below(300) {
        0..=2 => {
            let draft = extreme::counts(rng, Kind::Book);
            let plan = extreme::long_plan(rng, &draft);
            (draft, plan)
        }
        other => {
            let size = if other == 3 { LARGE } else { [SMALL, MEDIUM][usize::from(other < 30)] };
            let (draft, plan) = pair(rng, Kind::Book, size);
            (draft, plan.words())
        }
    }
}

fn random(both: &mut Both, rng: &mut Rng) {
    let (draft, mut plan) = drafted(rng);
    let mut book = draft.words();
    match rng.below(20) {
        0..=2 => damage::words(rng, &mut book),
        3..=5 => damage::words(rng, &mut plan),
        6 => damage::stretch(rng, &mut book),
        7 => damage::stretch(rng, &mut plan),
        _ => (),
    }
    let mut book = to_bytes(&book);
    if rng.percent(1) {
        damage::bytes(rng, &mut book);
    }
    let Some(list) = there_and_back(both, &book, &plan) else {
        // The list of nothing, or of something else.
        let words: Vec<u32> = (0..rng.below(12)).map(|_| rng.below(4)).collect();
        both.read_events(&book, &words, &room(30));
        return;
    };
    let (needed, short) = (list.len(), rng.pick(&[0, 1, 2]));
    if rng.percent(30) {
        let words = rng.pick(&[0, 1, 3, needed - 1, needed, needed + 1]);
        both.write_events(&book, &to_bytes(&plan), &room(words));
    }
    if rng.percent(30) {
        both.read_events(&book, &list, &room(plan.len() - short));
    }
    broken(both, rng, &book, list);
}

/// Lists near to one that was written.
fn broken(both: &mut Both, rng: &mut Rng, book: &[u8], list: Vec<u32>) {
    for _ in 0..3 {
        let mut list = list.clone();
        match rng.below(10) {
            0 => damage::words(rng, &mut list),
            1 => damage::stretch(rng, &mut list),
            2 => {
                events::damage(rng, &mut list);
                damage::words(rng, &mut list);
            }
            _ => events::damage(rng, &mut list),
        }
        let enough = plan_room(&list);
        let words = rng.pick(&[enough, enough, enough, 6, 0]);
        back_and_there(both, book, &list, words);
    }
}
