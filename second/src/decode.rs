//! Book or sheet as structs. The records are checked as they are decoded.

use crate::layout::{
    tables, Answer, Kind, Tables, LAST, MAX_ALTERNATIVES, MAX_NAMES, MAX_VALUES, N,
};
use crate::placed::Placed;
use std::ops::{Range, RangeInclusive};

pub struct Value {
    pub least: u32,
    pub greatest: u32,
    pub successors: u32,
}

/// A variable and value are kept as one number, the record of the value.
pub struct Rule {
    pub trigger: Option<usize>,
    pub alternatives: Range<usize>,
}

pub struct Alternative {
    pub names: Range<usize>,
    pub tests: Range<usize>,
    /// Where the tests that can be made once name k stands begin; the tests of
    /// an alternative are sorted by that.
    pub ready: [usize; 6],
}

pub struct Book<T> {
    pub variables: Vec<Range<usize>>,
    pub values: Vec<Value>,
    pub rules: Vec<Rule>,
    pub alternatives: Vec<Alternative>,
    pub names: Vec<usize>,
    pub tests: Vec<T>,
}

/// What a test may speak of.
pub struct Owner {
    pub trigger: bool,
    pub names: u32,
}

impl Owner {
    /// The token number as an index of the placed tokens, if there is one.
    pub fn token(&self, number: u32) -> Option<usize> {
        let good = number <= self.names && (number > 0 || self.trigger);
        good.then_some(number as usize)
    }
}

/// An atom or a constraint.
pub trait Test: Sized {
    const KIND: Kind;
    /// Or the first word that is wrong.
    fn read(record: &[u32], owner: &Owner) -> Result<Self, u32>;
    /// The last name it needs; 0 when it needs none.
    fn last_name(&self) -> usize;
    fn holds(&self, placed: &Placed) -> bool;
}

/// Ranges that follow each other from 0 without gaps, each of some number of
/// records, given by two words of which `word` is the first.
struct Run {
    next: u32,
    count: u32,
    numbers: RangeInclusive<u32>,
    word: usize,
}

impl Run {
    fn over(tables: &Tables, table: usize, numbers: RangeInclusive<u32>, word: usize) -> Run {
        Run { next: 0, count: tables.count(table) as u32, numbers, word }
    }

    /// The range that a record gives, or the word that is wrong.
    fn take(&mut self, record: &[u32]) -> Result<Range<usize>, u32> {
        let (first, number) = (record[self.word], record[self.word + 1]);
        if first != self.next {
            return Err(self.word as u32);
        }
        if !self.numbers.contains(&number) || number > self.count - self.next {
            return Err(self.word as u32 + 1);
        }
        self.next += number;
        Ok(first as usize..self.next as usize)
    }

    fn used_up(&self) -> bool {
        self.next == self.count
    }
}

/// The record of a value, if variable (word 0) and value (word 1) exist.
fn value_record(variables: &[Range<usize>], variable: u32, value: u32) -> Result<usize, u32> {
    let own = variables.get(variable as usize).ok_or(0u32)?;
    ((value as usize) < own.len()).then(|| own.start + value as usize).ok_or(1)
}

/// Decodes one table; a bad record gives its first wrong word.
fn all<T>(
    tables: &Tables,
    table: usize,
    mut read: impl FnMut(usize, &[u32]) -> Result<T, u32>,
) -> Result<Vec<T>, Answer> {
    let mut out = Vec::with_capacity(tables.count(table));
    for (i, record) in tables.records(table).enumerate() {
        out.push(read(i, record).map_err(|word| [4, table as u32, i as u32, word])?);
    }
    Ok(out)
}

/// Faults 1 to 4.
pub fn decode<T: Test>(words: &[u32]) -> Result<Book<T>, Answer> {
    let tables = tables(words, T::KIND)?;
    let left_over = |table: usize| [4, table as u32, tables.count(table) as u32, 0];

    let mut values_run = Run::over(&tables, 1, 1..=MAX_VALUES, 0);
    let variables = all(&tables, 0, |_, r| values_run.take(r))?;
    if !values_run.used_up() {
        return Err(left_over(0));
    }

    let mut owner = 0;
    let values = all(&tables, 1, |i, r| {
        while i >= variables[owner].end {
            owner += 1;
        }
        read_value(r, variables[owner].len())
    })?;

    let mut alternatives_run = Run::over(&tables, 3, 1..=MAX_ALTERNATIVES, 2);
    let rules = all(&tables, 2, |_, r| {
        let trigger = match (r[0], r[1]) {
            (N, 0) => None,
            (N, _) => return Err(1),
            (variable, value) => Some(value_record(&variables, variable, value)?),
        };
        Ok(Rule { trigger, alternatives: alternatives_run.take(r)? })
    })?;
    if !alternatives_run.used_up() {
        return Err(left_over(2));
    }

    let mut names_run = Run::over(&tables, 4, 0..=MAX_NAMES, 0);
    let mut tests_run = Run::over(&tables, 5, 0..=T::KIND.most_tests(), 2);
    let mut alternatives = all(&tables, 3, |_, r| {
        let (names, tests) = (names_run.take(r)?, tests_run.take(r)?);
        Ok(Alternative { names, tests, ready: [0; 6] })
    })?;
    if !names_run.used_up() || !tests_run.used_up() {
        return Err(left_over(3));
    }

    let names = all(&tables, 4, |_, r| value_record(&variables, r[0], r[1]))?;
    let tests = read_tests(&tables, &rules, &mut alternatives)?;
    Ok(Book { variables, values, rules, alternatives, names, tests })
}

fn read_value(record: &[u32], values_of_variable: usize) -> Result<Value, u32> {
    let (least, greatest, successors) = (record[0], record[1], record[2]);
    let least_good = (1..=LAST).contains(&least);
    let greatest_good = greatest == N || (least..=LAST).contains(&greatest);
    // In 64 bits, as a variable of 32 values has no bit above them.
    let set_good = u64::from(successors) >> values_of_variable == 0;
    let wrong = [least_good, greatest_good, set_good].iter().position(|good| !good);
    wrong.map_or(Ok(Value { least, greatest, successors }), |word| Err(word as u32))
}

/// Going by rules and alternatives meets the records of table 5 in order,
/// because the ranges follow each other and use all of the next table.
fn read_tests<T: Test>(
    tables: &Tables,
    rules: &[Rule],
    alternatives: &mut [Alternative],
) -> Result<Vec<T>, Answer> {
    let mut records = tables.records(5);
    let mut tests: Vec<T> = Vec::with_capacity(tables.count(5));
    for rule in rules {
        for alternative in &mut alternatives[rule.alternatives.clone()] {
            let owner =
                Owner { trigger: rule.trigger.is_some(), names: alternative.names.len() as u32 };
            for i in alternative.tests.clone() {
                let record = records.next().expect("as many records as the ranges say");
                let test = T::read(record, &owner);
                tests.push(test.map_err(|word| [4, 5, i as u32, word])?);
            }
            let own = &mut tests[alternative.tests.clone()];
            own.sort_by_key(T::last_name);
            alternative.ready = [alternative.tests.start; 6];
            for test in own.iter() {
                let later = &mut alternative.ready[test.last_name() + 1..];
                later.iter_mut().for_each(|ready| *ready += 1);
            }
        }
    }
    Ok(tests)
}
