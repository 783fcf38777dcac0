//! Mistakes in a text: where, what was expected, and the nearest name.

use std::fmt;

/// A place in a text, line and column counted from 1, columns in characters.
#[derive(Clone, Copy, Debug, Default, PartialEq, Eq, PartialOrd, Ord)]
pub struct Spot {
    pub line: usize,
    pub column: usize,
}

#[derive(Clone, Debug, PartialEq, Eq)]
pub struct Mistake {
    pub spot: Spot,
    pub says: String,
}

impl Mistake {
    pub fn new(spot: Spot, says: impl Into<String>) -> Mistake {
        Mistake { spot, says: says.into() }
    }
}

/// All mistakes of one text.
#[derive(Clone, Debug, PartialEq, Eq)]
pub struct Mistakes {
    pub file: String,
    pub all: Vec<Mistake>,
}

/// A text with more is not read to its end.
pub const MOST_MISTAKES: usize = 1_000;

/// Most mistakes that are shown of one text.
const SHOWN: usize = 50;

impl fmt::Display for Mistakes {
    fn fmt(&self, f: &mut fmt::Formatter) -> fmt::Result {
        for m in self.all.iter().take(SHOWN) {
            writeln!(f, "{}:{}:{}: {}", self.file, m.spot.line, m.spot.column, m.says)?;
        }
        match self.all.len().saturating_sub(SHOWN) {
            0 => Ok(()),
            1 => writeln!(f, "{}: and 1 more mistake", self.file),
            more => writeln!(f, "{}: and {more} more mistakes", self.file),
        }
    }
}

/// "; is it 'utf8'?" for a name that is near, else "; there is a, b and c".
pub fn hint<'a>(wrong: &str, known: impl Iterator<Item = &'a str>) -> String {
    let known: Vec<&str> = known.collect();
    let near = known.iter().map(|name| (distance(wrong, name), name)).min_by_key(|(d, _)| *d);
    match near {
        Some((d, name)) if d * 2 <= wrong.chars().count() => format!("; is it '{name}'?"),
        Some(_) if known.len() <= 12 => format!("; there is {}", list(&known, "and")),
        _ => String::new(),
    }
}

/// "a, b and c".
pub fn list<S: AsRef<str>>(items: &[S], last: &str) -> String {
    let items: Vec<&str> = items.iter().map(AsRef::as_ref).collect();
    match items.split_last() {
        None => String::new(),
        Some((only, [])) => only.to_string(),
        Some((end, before)) => format!("{} {last} {end}", before.join(", ")),
    }
}

/// Letters to change, drop, add or swap from one name to the other; case doesn't count.
fn distance(a: &str, b: &str) -> usize {
    const LONGEST: usize = 64;
    let small = |s: &str| s.chars().take(LONGEST).flat_map(char::to_lowercase).collect::<Vec<_>>();
    let (a, b) = (small(a), small(b));
    let mut before: Vec<usize> = vec![0; b.len() + 1];
    let mut above: Vec<usize> = (0..=b.len()).collect();
    for i in 1..=a.len() {
        let mut row = vec![i; b.len() + 1];
        for j in 1..=b.len() {
            let change = above[j - 1] + usize::from(a[i - 1] != b[j - 1]);
            row[j] = change.min(above[j] + 1).min(row[j - 1] + 1);
            if i > 1 && j > 1 && a[i - 1] == b[j - 2] && a[i - 2] == b[j - 1] {
                row[j] = row[j].min(before[j - 2] + 1);
            }
        }
        before = std::mem::replace(&mut above, row);
    }
    above[b.len()]
}
