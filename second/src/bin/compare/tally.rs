//! How often each answer was given, and which had to be.

use second::layout::Kind;
use second::Answer;
use std::collections::BTreeMap;

/// A function that is compared.
pub struct Door {
    pub name: &'static str,
    /// What its first run of words is.
    pub kind: Kind,
    /// The answers that it has to give.
    pub answers: &'static [u32],
    /// Those of them that have to be given at each of their places.
    pub placed: &'static [u32],
}

/// Tables whose records may be good and yet not use up the next table.
const RANGES: [u32; 3] = [0, 2, 3];
/// Marks such an answer; no table or word has so high a number.
const LEFT_OVER: u32 = 10_000;
/// A word of a bad record is counted with its table: table x 10 + word.
const BY_TABLE: u32 = 10;

fn shown(place: u32) -> String {
    match place.checked_sub(LEFT_OVER) {
        Some(table) => format!("{table} with the next not used up"),
        None => place.to_string(),
    }
}

impl Door {
    /// Every word of every table, as a fault 4 is counted.
    fn words(&self) -> impl Iterator<Item = u32> + '_ {
        let sizes = self.kind.sizes();
        (0..6).flat_map(move |t| (0..sizes[t as usize] as u32).map(move |c| t * BY_TABLE + c))
    }

    /// Every place of an answer.
    fn places(&self, number: u32) -> Vec<u32> {
        match number {
            0 => (0..2).collect(),
            2 => (0..14).collect(),
            4 => self.words().chain(RANGES.map(|t| t + LEFT_OVER)).collect(),
            6 => (0..5).collect(),
            _ => (3..7).collect(),
        }
    }

    /// Where an answer is counted; `count` is the record count of a table.
    fn place(&self, answer: Answer, count: impl Fn(u32) -> Option<u32>) -> Option<u32> {
        let [number, a, b, c] = answer;
        match number {
            2 | 14 => Some(a),
            4 if RANGES.contains(&a) && count(a) == Some(b) => Some(a + LEFT_OVER),
            4 => Some(a * BY_TABLE + c),
            // Word 3 stands for the first tokens, word 4 for the counts.
            6 if a > 2 => Some(4 - a % 2),
            6 => Some(a),
            // Yes or no.
            0 if self.placed.contains(&0) => Some(a),
            _ => None,
        }
    }
}

#[derive(Default)]
pub struct Tally {
    numbers: BTreeMap<(&'static str, u32), u64>,
    places: BTreeMap<(&'static str, u32, u32), u64>,
}

fn list(counts: impl Iterator<Item = (String, u64)>) -> String {
    counts.map(|(what, count)| format!("{what}: {count}")).collect::<Vec<_>>().join(", ")
}

impl Tally {
    /// `count` is the record count of the table that a fault 4 names.
    pub fn add(&mut self, door: &Door, answer: Answer, count: impl Fn(u32) -> Option<u32>) {
        *self.numbers.entry((door.name, answer[0])).or_default() += 1;
        if let Some(place) = door.place(answer, count) {
            *self.places.entry((door.name, answer[0], place)).or_default() += 1;
        }
    }

    /// A line for each door, then the places.
    pub fn print(&self, doors: &[&Door]) {
        for door in doors {
            let own = self.numbers.iter().filter(|(key, _)| key.0 == door.name);
            println!("{}: {}", door.name, list(own.map(|(key, n)| (key.1.to_string(), *n))));
        }
        println!("(of a step, 0 is a token handed out and 1 is \"no more\")");
        self.print_places(2, "fault 2 by word");
        self.print_places(4, "fault 4 by table and word, 31 being word 1 of table 3");
        self.print_places(6, "fault 6 by word; 3 is any first token, 4 any count");
        self.print_places(14, "fault 14 by table");
        self.print_places(0, "earliest: 0 is no, 1 is yes");
    }

    /// How often a fault was at each place, over all doors.
    fn print_places(&self, number: u32, title: &str) {
        let mut sums: BTreeMap<u32, u64> = BTreeMap::new();
        for ((_, _, place), count) in self.places.iter().filter(|(key, _)| key.1 == number) {
            *sums.entry(*place).or_default() += count;
        }
        if sums.is_empty() {
            return;
        }
        println!("{title}: {}", list(sums.into_iter().map(|(place, n)| (shown(place), n))));
    }

    /// The answers that can be given and never were.
    pub fn missing(&self, doors: &[&Door]) -> Vec<String> {
        let mut missing = Vec::new();
        for door in doors {
            for &number in door.answers {
                if !self.numbers.contains_key(&(door.name, number)) {
                    missing.push(format!("{}: {number}", door.name));
                }
            }
            for &number in door.placed {
                for place in door.places(number) {
                    if !self.places.contains_key(&(door.name, number, place)) {
                        missing.push(format!("{}: {number} at {}", door.name, shown(place)));
                    }
                }
            }
        }
        missing
    }
}
