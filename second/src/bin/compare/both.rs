//! Asks both judges and stops at the first difference.

use crate::proved;
use crate::tally::{Door, Tally};
use second::layout::{Kind, N};
use second::words::from_bytes;
use second::{bytes, Answer, Position};
use std::fmt::Debug;
use std::process::exit;

const JUDGED: [u32; 14] = [0, 1, 2, 3, 4, 5, 6, 7, 8, 9, 10, 11, 12, 18];
const OPENED: [u32; 14] = [0, 1, 2, 3, 4, 5, 6, 7, 8, 9, 10, 11, 17, 18];

const fn door(
    name: &'static str,
    kind: Kind,
    answers: &'static [u32],
    placed: &'static [u32],
) -> Door {
    Door { name, kind, answers, placed }
}

const JUDGE: Door = door("judge", Kind::Book, &JUDGED, &[2, 4, 6]);
const JUDGE_SHEET: Door = door("judge sheet", Kind::Sheet, &JUDGED, &[2, 4, 6]);
const TRANSLATE: Door = door("translate", Kind::Sheet, &[0, 1, 2, 3, 4, 13, 14, 15], &[2, 4, 14]);
const NARROW: Door = door("narrow", Kind::Sheet, &[0, 1, 2, 3, 4, 25, 27], &[2, 4]);
const OPEN: Door = door("open", Kind::Book, &OPENED, &[2, 4, 6]);
const STEP: Door = door("step", Kind::Book, &[0, 1], &[]);
const EARLIEST: Door = door("earliest", Kind::Book, &[0, 1, 2, 3, 4, 27], &[0, 2, 4]);

pub const DOORS: [&Door; 7] = [&JUDGE, &JUDGE_SHEET, &TRANSLATE, &NARROW, &OPEN, &STEP, &EARLIEST];

#[derive(Default)]
pub struct Both {
    pub tally: Tally,
    pub asked: u64,
    /// Which case is under way, to run it again.
    pub case: String,
}

/// What words a room holds before a call.
pub fn room(words: usize) -> Vec<u32> {
    (0..words as u32).map(|i| 0xA5A5_0000 ^ i).collect()
}

/// The record count that the header gives a table.
fn count(bytes: &[u8]) -> impl Fn(u32) -> Option<u32> + '_ {
    |table| from_bytes(bytes).get(2 + 2 * table as usize).copied()
}

fn print_input(name: &str, bytes: &[u8]) {
    let chunks = bytes.chunks_exact(4);
    let rest = chunks.remainder();
    let words: Vec<String> =
        chunks.map(|c| u32::from_le_bytes([c[0], c[1], c[2], c[3]]).to_string()).collect();
    println!("{name}, {} bytes: {}", bytes.len(), words.join(" "));
    if !rest.is_empty() {
        println!("  and the bytes {rest:?}");
    }
}

impl Both {
    /// The proved library gave what the second judge gave, or the run ends.
    pub fn same<T: PartialEq + Debug>(
        &self,
        what: &str,
        proved: &T,
        second: &T,
        inputs: &[(&str, &[u8])],
    ) {
        if proved != second {
            self.stop(what, &[("proved", proved), ("second", second)], inputs);
        }
    }

    /// What both gave is what it has to be, or the run ends.
    pub fn expect<T: PartialEq + Debug>(
        &self,
        what: &str,
        given: &T,
        expected: &T,
        inputs: &[(&str, &[u8])],
    ) {
        if given != expected {
            self.stop(what, &[("given", given), ("expected", expected)], inputs);
        }
    }

    /// Both gave a specimen's line.
    pub fn specimen(&self, name: &str, answer: Answer, expected: Answer) {
        self.expect("what the law expects", &answer, &expected, &[]);
        let [n, a, b, c] = answer;
        println!("specimen {name}: {n} {a} {b} {c}");
    }

    fn stop(&self, what: &str, found: &[(&str, &dyn Debug)], inputs: &[(&str, &[u8])]) -> ! {
        println!("DIFFERENCE in {what}, {}", self.case);
        found.iter().for_each(|(who, this)| println!("{who}: {this:?}"));
        inputs.iter().for_each(|(name, bytes)| print_input(name, bytes));
        exit(1);
    }

    pub fn note(&mut self, door: &Door, answer: Answer, book: &[u8]) -> Answer {
        self.asked += 1;
        self.tally.add(door, answer, count(book));
        answer
    }

    pub fn judge(&mut self, book: &[u8], plan: &[u8]) -> Answer {
        let (proved, second) = (proved::judge(book, plan), bytes::judge(book, plan));
        self.same("judge", &proved, &second, &[("book", book), ("plan", plan)]);
        self.note(&JUDGE, second, book)
    }

    pub fn judge_sheet(&mut self, sheet: &[u8], plan: &[u8]) -> Answer {
        let (proved, second) = (proved::judge_sheet(sheet, plan), bytes::judge_sheet(sheet, plan));
        self.same("judge sheet", &proved, &second, &[("sheet", sheet), ("plan", plan)]);
        self.note(&JUDGE_SHEET, second, sheet)
    }

    /// Also compares the whole rooms, and that only the words written changed.
    pub fn translate(&mut self, sheet: &[u8], words: usize) -> (Answer, Vec<u32>) {
        let (mut by_proved, mut by_second) = (room(words), room(words));
        let proved = proved::translate(sheet, &mut by_proved);
        let second = bytes::translate(sheet, &mut by_second);
        let what = format!("translate with room for {words} words");
        self.same(&what, &proved, &second, &[("sheet", sheet)]);
        self.same(&format!("the room of {what}"), &by_proved, &by_second, &[("sheet", sheet)]);
        let written = if second[0] == 0 { second[1] as usize } else { 0 };
        let rest = &room(words)[written..];
        self.expect("the rest of the room", &&by_proved[written..], &rest, &[("sheet", sheet)]);
        by_second.truncate(written);
        (self.note(&TRANSLATE, second, sheet), by_second)
    }

    /// Also compares the whole tables.
    pub fn narrow(&mut self, sheet: &[u8], alternative: u32, words: usize) -> (Answer, Vec<u32>) {
        let (mut by_proved, mut by_second) = (room(words), room(words));
        let proved = proved::narrow(sheet, alternative, &mut by_proved);
        let second = bytes::narrow(sheet, alternative, &mut by_second);
        let what = format!("narrow of alternative {alternative} with a table of {words} words");
        self.same(&what, &proved, &second, &[("sheet", sheet)]);
        self.same(&format!("the table of {what}"), &by_proved, &by_second, &[("sheet", sheet)]);
        if second[0] != 0 {
            self.expect("the table refused", &by_proved, &room(words), &[("sheet", sheet)]);
        }
        (self.note(&NARROW, second, sheet), by_second)
    }

    /// Also compares all the lent numbers, those behind the times too.
    pub fn earliest(&mut self, book: &[u8], alternative: u32, room: usize) -> (Answer, Vec<u64>) {
        let before: Vec<u64> = (0..room as u64).map(|i| 0xA5A5_0000_0000 ^ i).collect();
        let (mut by_proved, mut by_second) = (before.clone(), before.clone());
        let proved = proved::earliest(book, alternative, &mut by_proved);
        let second = bytes::earliest(book, alternative, &mut by_second);
        let what = format!("earliest of alternative {alternative} with room for {room} times");
        self.same(&what, &proved, &second, &[("book", book)]);
        self.same(&format!("the times of {what}"), &by_proved, &by_second, &[("book", book)]);
        if second != [0, 1, 0, 0] {
            self.expect("the times without a yes", &by_proved, &before, &[("book", book)]);
        }
        (self.note(&EARLIEST, second, book), by_second)
    }

    pub fn step(&mut self, plan: &[u8], at: Position) -> Option<Position> {
        let second = bytes::step(plan, at);
        let expected = proved::expected(second, at);
        self.same(
            &format!("step at {at:?}"),
            &proved::step(&from_bytes(plan), at),
            &expected,
            &[("plan", plan)],
        );
        self.note(&STEP, [u32::from(!expected.more), 0, 0, 0], &[]);
        second.map(|(_, next)| next)
    }

    /// Opens a reader and steps along, past the end too.
    pub fn read(&mut self, book: &[u8], plan: &[u8], line: u32, most: u32) {
        let proved = proved::open(&from_bytes(book), &from_bytes(plan), line);
        let (second, token, start) = bytes::open_reader(book, plan, line);
        let what = format!("open of line {line}");
        self.same(&what, &proved, &(second, token), &[("book", book), ("plan", plan)]);
        self.note(&OPEN, second, book);
        let refused = if second[0] == 0 { (0, 0) } else { (N, 0) };
        self.expect("where the reader stands", &(token, start), &refused, &[]);
        let mut at = Position { line, token, start };
        for _ in 0..most {
            match self.step(plan, at) {
                Some(next) => at = next,
                None => break,
            }
        }
        self.step(plan, at);
    }
}
