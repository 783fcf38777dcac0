//! Refusals 1 to 7: which word of book or plan is wrong, and what is expected there.

use crate::decode::{widths, COUNTS};
use crate::model::Kind;
use crate::words::{LAST, MOST_TOKENS, MOST_WORDS, N};

/// Words that may be any at all; one that isn't there is 0.
pub struct Raw<'a> {
    pub kind: Kind,
    pub words: &'a [u32],
}

const TABLES: [&str; 6] = ["variables", "values", "rules", "alternatives", "names", "atoms"];
const WORDS: [&[&str]; 5] = [
    &["first value", "number of values"],
    &["least duration", "greatest duration", "successor set"],
    &["trigger variable", "trigger value", "first alternative", "number of alternatives"],
    &["first name", "number of names", "first atom", "number of atoms"],
    &["variable", "value"],
];
const ATOM: [&str; 6] =
    ["left kind", "left argument", "right kind", "right argument", "lower", "upper"];
const CONSTRAINT: [&str; 3] = ["left token", "right token", "relation set"];

impl Raw<'_> {
    fn word(&self, at: usize) -> u32 {
        self.words.get(at).copied().unwrap_or(0)
    }

    fn count(&self, table: usize) -> usize {
        self.word(2 + 2 * table) as usize
    }

    /// Word `word` of a record.
    fn of(&self, table: usize, record: usize, word: usize) -> u32 {
        let offset = self.word(3 + 2 * table) as usize;
        let within = record.saturating_mul(widths(self.kind)[table]).saturating_add(word);
        self.word(offset.saturating_add(within))
    }

    /// The sum of a word over the records before this one.
    fn used(&self, table: usize, record: usize, word: usize) -> u64 {
        let most = record.min(MOST_WORDS);
        (0..most).map(|r| u64::from(self.of(table, r, word))).sum()
    }

    /// The record of `table` whose range, with its number at `word`, has `item`.
    fn owner(&self, table: usize, word: usize, item: usize) -> Option<usize> {
        let mut end = 0;
        (0..self.count(table).min(MOST_WORDS)).find(|record| {
            end += u64::from(self.of(table, *record, word));
            (item as u64) < end
        })
    }

    fn table_name(&self, table: usize) -> &'static str {
        match (table, self.kind) {
            (5, Kind::Sheet) => "constraints",
            _ => TABLES.get(table).copied().unwrap_or("unknown"),
        }
    }

    fn word_name(&self, table: usize, word: usize) -> &'static str {
        let names = match (table, self.kind) {
            (5, Kind::Book) => &ATOM[..],
            (5, Kind::Sheet) => &CONSTRAINT[..],
            _ => WORDS.get(table).copied().unwrap_or(&[]),
        };
        names.get(word).copied().unwrap_or("unknown")
    }

    /// Refusal 1.
    pub fn length(&self, bytes: usize) -> String {
        let (kind, most) = (self.kind.word(), 4 * MOST_WORDS);
        format!("the {kind} has {bytes} bytes; expected 56 to {most}, 4 for each word")
    }

    /// Refusal 2.
    pub fn header(&self, word: usize) -> String {
        let kind = self.kind.word();
        let (name, expected) = match word {
            0 => ("the edition".to_string(), self.kind.edition().to_string()),
            1 => ("the total of words".to_string(), self.words.len().to_string()),
            _ if word % 2 == 0 => {
                let table = (word - 2) / 2;
                let limits = COUNTS.get(table).cloned().unwrap_or(0..=0);
                let name = format!("the count of table {table}, {}", self.table_name(table));
                (name, format!("{} to {}", limits.start(), limits.end()))
            }
            _ => {
                let table = (word - 3) / 2;
                (format!("the offset of table {table}"), self.offset(table).to_string())
            }
        };
        let found = number(self.word(word));
        format!("word {word} of the {kind}, {name}, is {found}; expected {expected}")
    }

    /// Where a table begins, by the counts of those before it.
    fn offset(&self, table: usize) -> u64 {
        let widths = widths(self.kind);
        let size = |t: usize| self.count(t) as u64 * widths[t] as u64;
        14 + (0..table.min(6)).map(size).sum::<u64>()
    }

    /// Refusal 3.
    pub fn end(&self) -> String {
        let (kind, length, end) = (self.kind.word(), self.words.len(), self.offset(6));
        format!("table 5 of the {kind} ends at word {end}, and the {kind} has {length} words")
    }

    /// Refusal 4.
    pub fn record(&self, table: usize, record: usize, word: usize) -> String {
        let name = self.table_name(table);
        if table < 5 && record == self.count(table) {
            let next =
                if table == 3 { "names or what is asked" } else { self.table_name(table + 1) };
            return format!(
                "the records of table {table}, {name}, are good but leave {next} unused"
            );
        }
        let what = self.word_name(table, word);
        let found = if table < 6 { number(self.of(table, record, word)) } else { String::new() };
        let expected = self.expected(table, record, word);
        let kind = self.kind.word();
        format!(
            "table {table} of the {kind}, {name}, record {record}, word {word}, the {what}, is \
             {found}; expected {expected}"
        )
    }

    fn expected(&self, table: usize, record: usize, word: usize) -> String {
        let own = |word: usize| self.of(table, record, word);
        let follows = |number: usize| {
            format!("{}, where the record before it ends", self.used(table, record, number))
        };
        let left = |low: u32, high: u32, next: usize, number: usize| {
            let left = (self.count(next) as u64).saturating_sub(self.used(table, record, number));
            format!("{low} to {high}, and no more than the {left} {} left", self.table_name(next))
        };
        let most_asks = self.kind.most_asks() as u32;
        match (table, word) {
            (0, 0) => follows(1),
            (0, 1) => left(1, 32, 1, 1),
            (1, 0) => format!("1 to {LAST}"),
            (1, 1) => format!("{} to {LAST}, or {N} for no limit", own(0)),
            (1, 2) => {
                let values = self.owner(0, 1, record).map_or(0, |timeline| self.of(0, timeline, 1));
                format!("a bit for each of the {values} values of its variable, and none above")
            }
            (2, 0) => format!("0 to {}, or {N} for no trigger", self.count(0).saturating_sub(1)),
            (2, 1) if own(0) == N => "0, as there is no trigger".to_string(),
            (2, 1) | (4, 1) => self.value_of(own(0)),
            (2, 2) => follows(3),
            (2, 3) => left(1, 64, 3, 3),
            (3, 0) => follows(1),
            (3, 1) => left(0, 4, 4, 1),
            (3, 2) => follows(3),
            (3, 3) => left(0, most_asks, 5, 3),
            (4, 0) => format!("0 to {}", self.count(0).saturating_sub(1)),
            (5, _) if self.kind == Kind::Sheet => match word {
                2 => "1 to 8191".to_string(),
                _ => self.tokens(record),
            },
            (5, _) => self.atom(record, word),
            _ => "nothing".to_string(),
        }
    }

    fn value_of(&self, variable: u32) -> String {
        let values = self.of(0, variable as usize, 1);
        format!("0 to {}, a value of variable {variable}", values.saturating_sub(1))
    }

    fn atom(&self, record: usize, word: usize) -> String {
        let own = |word: usize| self.of(5, record, word);
        let job = own(0) == 4;
        match word {
            0 => "0 start, 1 end, 2 time point, 3 end of the plan or 4 job".to_string(),
            1 | 3 => match own(word - 1) {
                2 => format!("0 to {LAST}"),
                3 => "0".to_string(),
                _ => self.tokens(record),
            },
            2 if job => "4, job, as on the left".to_string(),
            2 => "0 start, 1 end, 2 time point or 3 end of the plan; 4, job, stands on both \
                  sides or on neither"
                .to_string(),
            4 | 5 if job => "0, as jobs are only compared".to_string(),
            4 => format!("0 to {LAST}"),
            _ => format!("{} to {LAST}, or {N} for no limit", own(4)),
        }
    }

    /// The tokens that an atom or constraint may speak of.
    fn tokens(&self, record: usize) -> String {
        let Some(way) = self.owner(3, 3, record) else { return "a token".to_string() };
        let names = self.of(3, way, 1);
        let rule = self.owner(2, 3, way);
        let trigger = rule.is_some_and(|rule| self.of(2, rule, 0) != N);
        match (trigger, names) {
            (true, 0) => "0 for the trigger".to_string(),
            (true, _) => format!("0 for the trigger, or 1 to {names} for a name"),
            (false, 0) => "nothing: the alternative has no token".to_string(),
            (false, _) => format!("1 to {names} for a name, as there is no trigger"),
        }
    }
}

/// A word, with the mark for no limit by its name.
fn number(word: u32) -> String {
    match word {
        N => format!("{N} (no limit)"),
        word => word.to_string(),
    }
}

/// Refusal 5.
pub fn plan_length(bytes: usize, variables: usize) -> String {
    let (least, most) = (4 * (3 + 2 * variables), 4 * MOST_WORDS);
    format!("the plan has {bytes} bytes; expected {least} to {most}, 4 for each word")
}

/// Refusal 6.
pub fn plan_header(plan: &[u32], variables: usize, word: usize) -> String {
    let at = |word: usize| plan.get(word).copied().unwrap_or(0);
    let line = word.saturating_sub(3) / 2;
    let (name, expected) = match word {
        0 => ("the edition".to_string(), "1, or 2 with jobs".to_string()),
        1 => ("the total of words".to_string(), plan.len().to_string()),
        2 => ("the number of timelines".to_string(), variables.to_string()),
        _ if word % 2 == 1 => {
            let before = (0..line).map(|l| u64::from(at(4 + 2 * l))).sum::<u64>();
            (format!("the first token of timeline {line}"), before.to_string())
        }
        _ => (format!("the token count of timeline {line}"), format!("0 to {MOST_TOKENS}")),
    };
    format!("word {word} of the plan, {name}, is {}; expected {expected}", at(word))
}

/// Refusal 7.
pub fn plan_end(plan: &[u32], variables: usize) -> String {
    let at = |word: usize| plan.get(word).copied().unwrap_or(0);
    let tokens = (0..variables).map(|line| u64::from(at(4 + 2 * line))).sum::<u64>();
    let width = if at(0) == 2 { 3 } else { 2 };
    let end = 3 + 2 * variables as u64 + width * tokens;
    format!("the plan's {tokens} tokens end at word {end}, and the plan has {} words", plan.len())
}
