//! Names in a text: which words need quotes, and how houses show theirs.

use super::lex::is_word_char;
use super::mistake::hint;
use crate::model::{House, Rule, Way};

/// Most letters of a name.
pub const MOST_LETTERS: usize = 40;

/// The words of the language. A name like one of them stands in quotes.
const RESERVED: [&str; 56] = [
    "after",
    "and",
    "any",
    "anything",
    "as",
    "at",
    "before",
    "book",
    "by",
    "called",
    "contains",
    "during",
    "each",
    "either",
    "end",
    "ends",
    "equals",
    "every",
    "events",
    "exactly",
    "finished",
    "finishes",
    "for",
    "house",
    "in",
    "is",
    "lasts",
    "least",
    "meets",
    "met",
    "most",
    "nothing",
    "of",
    "on",
    "or",
    "over",
    "overlapped",
    "overlaps",
    "plan",
    "relation",
    "rule",
    "same",
    "sheet",
    "some",
    "start",
    "started",
    "starts",
    "the",
    "then",
    "time",
    "timeline",
    "to",
    "trigger",
    "value",
    "when",
    "with",
];

pub fn is_reserved(word: &str) -> bool {
    RESERVED.iter().any(|reserved| reserved.eq_ignore_ascii_case(word))
}

/// A name as a text has it: bare if it can be.
pub fn written(name: &str) -> String {
    let digits = name.chars().all(|c| c.is_ascii_digit());
    if digits || is_reserved(name) || !name.chars().all(is_word_char) {
        return format!("\"{name}\"");
    }
    name.to_string()
}

impl House {
    /// A timeline as a text names it: "decoder", or "timeline 0".
    pub fn timeline(&self, timeline: usize) -> String {
        match self.timelines.get(timeline).and_then(|t| t.name.as_deref()) {
            Some(name) => written(name),
            None => format!("timeline {timeline}"),
        }
    }

    /// A value as a text names it: "utf8", or "value 1".
    pub fn value(&self, timeline: usize, value: usize) -> String {
        let known = self.timelines.get(timeline).and_then(|t| t.values.get(value));
        match known.and_then(|v| v.name.as_deref()) {
            Some(name) => written(name),
            None => format!("value {value}"),
        }
    }

    pub fn find_timeline(&self, name: &str) -> Result<usize, String> {
        let found = self.timelines.iter().position(|t| t.name.as_deref() == Some(name));
        found.ok_or_else(|| {
            let known = self.timelines.iter().filter_map(|t| t.name.as_deref());
            format!("no timeline '{name}'{}", hint(name, known))
        })
    }

    pub fn find_value(&self, timeline: usize, name: &str) -> Result<usize, String> {
        let values = self.timelines.get(timeline).map_or(&[][..], |t| &t.values);
        let found = values.iter().position(|v| v.name.as_deref() == Some(name));
        found.ok_or_else(|| {
            let known = values.iter().filter_map(|v| v.name.as_deref());
            format!("no value '{name}' on {}{}", self.timeline(timeline), hint(name, known))
        })
    }
}

/// What the tokens of an alternative are called, the trigger first. Those that
/// the text calls nothing get a letter.
pub fn token_names(rule: &Rule, way: &Way) -> Vec<String> {
    let trigger = rule.trigger.as_ref().and_then(|t| t.called.as_deref());
    let mut names = vec![trigger.map_or("the trigger".to_string(), written)];
    let taken: Vec<&str> =
        way.names.iter().filter_map(|n| n.called.as_deref()).chain(trigger).collect();
    let mut letters = ('A'..='Z').map(String::from).filter(|l| !taken.contains(&l.as_str()));
    for name in &way.names {
        let called = name.called.as_deref().map(written);
        names.push(called.or_else(|| letters.next()).unwrap_or_default());
    }
    names
}
