//! From a sheet to the book that says the same in atoms.

use crate::decode::{decode, Book};
use crate::layout::{tables, Answer, Kind, COUNTS, HEADER, MAX_ALTERNATIVES, MAX_WORDS, N};
use crate::sheet::{Constraint, RELATIONS};

/// Start and end of left, start and end of right.
#[derive(Clone, Copy)]
enum Side {
    S,
    E,
    S2,
    E2,
}
use Side::{E, E2, S, S2};

#[derive(Clone, Copy)]
enum Order {
    Before(Side, Side),
    Same(Side, Side),
}
use Order::{Before, Same};

/// The atoms of each relation, in order.
const ATOMS: [&[Order]; RELATIONS as usize] = [
    &[Before(E, S2)],
    &[Same(E, S2)],
    &[Before(S, S2), Before(S2, E), Before(E, E2)],
    &[Before(S, S2), Same(E, E2)],
    &[Before(S, S2), Before(E2, E)],
    &[Same(S, S2), Before(E, E2)],
    &[Same(S, S2), Same(E, E2)],
    &[Same(S, S2), Before(E2, E)],
    &[Before(S2, S), Before(E, E2)],
    &[Before(S2, S), Same(E, E2)],
    &[Before(S2, S), Before(S, E2), Before(E2, E)],
    &[Same(E2, S)],
    &[Before(E2, S)],
];

/// A constraint with its relations listed, ascending.
struct Choice {
    left: u32,
    right: u32,
    relations: Vec<usize>,
}

impl Choice {
    fn read(record: &[u32]) -> Choice {
        let relations = (0..ATOMS.len()).filter(|r| record[2] >> r & 1 == 1).collect();
        Choice { left: record[0], right: record[1], relations }
    }

    /// Atoms over all its relations.
    fn atoms(&self) -> u64 {
        self.relations.iter().map(|&r| ATOMS[r].len() as u64).sum()
    }

    fn write(&self, relation: usize, out: &mut Vec<u32>) {
        let term = |side| match side {
            S => [0, self.left],
            E => [1, self.left],
            S2 => [0, self.right],
            E2 => [1, self.right],
        };
        for order in ATOMS[relation] {
            let (p, q, bounds) = match *order {
                Before(p, q) => (p, q, [1, N]),
                Same(p, q) => (p, q, [0, 0]),
            };
            out.extend(term(p));
            out.extend(term(q));
            out.extend(bounds);
        }
    }
}

/// How many alternatives one becomes. At most 13 to the 8th, so 64 bits do.
fn product(choices: &[Choice]) -> u64 {
    choices.iter().map(|c| c.relations.len() as u64).product()
}

/// Counts of tables 3, 4 and 5 of the translation.
fn counts(sheet: &Book<Constraint>, choices: &[Choice]) -> Result<[u64; 3], Answer> {
    for (rule, number) in sheet.rules.iter().zip(0u32..) {
        let own = &sheet.alternatives[rule.alternatives.clone()];
        let sum: u64 = own.iter().map(|a| product(&choices[a.tests.clone()])).sum();
        if sum > u64::from(MAX_ALTERNATIVES) {
            return Err([13, number, 0, 0]);
        }
    }
    let mut sums = [0; 3];
    for alternative in &sheet.alternatives {
        let own = &choices[alternative.tests.clone()];
        let times = product(own);
        sums[0] += times;
        sums[1] += times * alternative.names.len() as u64;
        // Each relation of a constraint meets each choice of the others.
        sums[2] += own.iter().map(|c| c.atoms() * (times / c.relations.len() as u64)).sum::<u64>();
    }
    for (sum, table) in sums.iter().zip(3u32..) {
        if *sum > u64::from(COUNTS[table as usize].1) {
            return Err([14, table, 0, 0]);
        }
    }
    Ok(sums)
}

/// Writes the translation into the room, or answers why not.
pub fn translate(sheet: &[u32], room: &mut [u32]) -> Answer {
    match book_of(sheet, room.len()) {
        Ok((words, alternatives)) => {
            room[..words.len()].copy_from_slice(&words);
            [0, words.len() as u32, alternatives, 0]
        }
        Err(answer) => answer,
    }
}

fn book_of(words: &[u32], room: usize) -> Result<(Vec<u32>, u32), Answer> {
    let sheet: Book<Constraint> = decode(words)?;
    let source = tables(words, Kind::Sheet)?;
    // From the words, as the order of the records counts here.
    let choices: Vec<Choice> = source.records(5).map(Choice::read).collect();
    let sums = counts(&sheet, &choices)?;

    let sizes = Kind::Book.sizes();
    let count = |table: usize| match table {
        0..=2 => source.count(table),
        _ => sums[table - 3] as usize,
    };
    let total = HEADER + (0..6).map(|t| count(t) * sizes[t]).sum::<usize>();
    if total > MAX_WORDS {
        return Err([14, 6, 0, 0]);
    }
    if room < total {
        return Err([15, total as u32, 0, 0]);
    }

    let mut out = Vec::with_capacity(total);
    out.extend([Kind::Book.edition(), total as u32]);
    let mut at = HEADER;
    for (table, size) in sizes.into_iter().enumerate() {
        out.extend([count(table) as u32, at as u32]);
        at += count(table) * size;
    }
    out.extend(source.words(0));
    out.extend(source.words(1));
    let [rules, alternatives, names, atoms] =
        expand(&sheet, &choices, source.words(2), source.words(4));
    for table in [rules, alternatives, names, atoms] {
        out.extend(table);
    }
    Ok((out, sums[0] as u32))
}

/// Tables 2 to 5 of the translation.
fn expand(
    sheet: &Book<Constraint>,
    choices: &[Choice],
    rule_words: &[u32],
    name_words: &[u32],
) -> [Vec<u32>; 4] {
    let [mut rules, mut alternatives, mut names, mut atoms] = [const { Vec::new() }; 4];
    for (rule, record) in sheet.rules.iter().zip(rule_words.chunks_exact(4)) {
        let first = alternatives.len() / 4;
        for alternative in &sheet.alternatives[rule.alternatives.clone()] {
            let own = &choices[alternative.tests.clone()];
            let own_names = &name_words[2 * alternative.names.start..2 * alternative.names.end];
            for turn in 0..product(own) {
                let (first_name, first_atom) = (names.len() / 2, atoms.len() / 6);
                names.extend_from_slice(own_names);
                for (choice, digit) in own.iter().zip(digits(own, turn)) {
                    choice.write(choice.relations[digit], &mut atoms);
                }
                let number = atoms.len() / 6 - first_atom;
                let words = [first_name, alternative.names.len(), first_atom, number];
                alternatives.extend(words.map(|w| w as u32));
            }
        }
        let number = alternatives.len() / 4 - first;
        rules.extend([record[0], record[1], first as u32, number as u32]);
    }
    [rules, alternatives, names, atoms]
}

/// The turn as a number with one digit for each constraint, the last one being
/// the units.
fn digits(own: &[Choice], turn: u64) -> Vec<usize> {
    let mut left = turn;
    let mut out: Vec<usize> = own
        .iter()
        .rev()
        .map(|c| {
            let base = c.relations.len() as u64;
            let digit = left % base;
            left /= base;
            digit as usize
        })
        .collect();
    out.reverse();
    out
}
