//! Reading files: words, texts, and the houses that texts name.

use crate::call::Wrong;
use desk::model::House;
use desk::text::{self, NoHouse, Text, MOST_BYTES};
use std::fs::File;
use std::io::Read;
use std::path::Path;

/// A file's bytes, at most one more than a text may have.
pub fn bytes(path: &str) -> Result<Vec<u8>, Wrong> {
    let wrong = |error: std::io::Error| Wrong(format!("can't read {path}: {error}"));
    let mut bytes = Vec::new();
    let file = File::open(path).map_err(wrong)?;
    file.take(MOST_BYTES as u64 + 1).read_to_end(&mut bytes).map_err(wrong)?;
    Ok(bytes)
}

pub fn write(path: &str, bytes: &[u8]) -> Result<(), Wrong> {
    std::fs::write(path, bytes).map_err(|error| Wrong(format!("can't write {path}: {error}")))
}

pub fn is_words(path: &str) -> bool {
    path.ends_with(".bin")
}

/// A text. The house that it names is looked for from the text's own folder.
pub fn text(path: &str, given: Option<&House>) -> Result<Text, Wrong> {
    let folder = Path::new(path).parent().unwrap_or(Path::new(""));
    let fetch = |name: &str| {
        let file = folder.join(name);
        house_text(&file.to_string_lossy())
    };
    text::read(path, &bytes(path)?, given, &fetch).map_err(|mistakes| Wrong(mistakes.to_string()))
}

/// The house of a text that has one of its own.
fn house_text(path: &str) -> Result<House, NoHouse> {
    if is_words(path) {
        return Err(NoHouse::Message(format!("{path} is words, and they have no names")));
    }
    let bytes = bytes(path).map_err(|Wrong(says)| NoHouse::Message(says))?;
    let no_other = |_: &str| {
        Err(NoHouse::Message(
            "a house was expected: 'house', or rules with timelines of their own".to_string(),
        ))
    };
    match text::read(path, &bytes, None, &no_other).map_err(NoHouse::Mistakes)? {
        Text::House(house) => Ok(house),
        Text::Rules(rules) => Ok(rules.house),
        Text::Plan(..) => Err(NoHouse::Message(format!("{path} is a plan, not a house"))),
        Text::Events(..) => Err(NoHouse::Message(format!("{path} is events, not a house"))),
    }
}

/// The house of an option.
pub fn house(path: Option<&str>) -> Result<Option<House>, Wrong> {
    let found = path.map(house_text).transpose();
    found.map_err(|no| match no {
        NoHouse::Message(says) => Wrong(says),
        NoHouse::Mistakes(mistakes) => Wrong(mistakes.to_string()),
    })
}
