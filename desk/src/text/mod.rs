//! The language of docs/TEXT.md: reading it, with all mistakes at once, and writing it.

pub mod mistake;
pub mod name;
pub mod write;

mod ask;
mod cursor;
mod house;
mod lex;
mod place;
mod plan;
mod rules;

use crate::model::{Events, House, Kind, Plan, Rules};
use cursor::{Cursor, Read};
use lex::Statement;
pub use lex::MOST_BYTES;
use mistake::{hint, Mistake, Mistakes, Spot};
use plan::Names;

/// What a text says.
#[derive(Clone, Debug, PartialEq, Eq)]
pub enum Text {
    House(House),
    Rules(Rules),
    /// A plan, with the house that it names.
    Plan(Plan, Option<House>),
    Events(Events, Option<House>),
}

/// Why a house can't be had: in a message, or for mistakes in its own text.
pub enum NoHouse {
    Message(String),
    Mistakes(Mistakes),
}

/// Fetches the house that a text names by its file.
pub type Fetch<'a> = &'a dyn Fn(&str) -> Result<House, NoHouse>;

/// The first line of a text.
struct Header {
    what: What,
    over: Option<(String, Spot)>,
}

enum What {
    House,
    Rules(Kind),
    Plan { jobs: bool },
    Events { jobs: bool },
}

/// Reads a text. `given` is the house for a text that names none.
pub fn read(
    file: &str,
    bytes: &[u8],
    given: Option<&House>,
    fetch: Fetch,
) -> Result<Text, Mistakes> {
    let wrong = |all: Vec<Mistake>| Mistakes { file: file.to_string(), all };
    let text = lex::decode(bytes).map_err(|m| wrong(vec![m]))?;
    let mut mistakes = Vec::new();
    let statements = lex::statements(text, &mut mistakes);
    let unread: Vec<usize> = mistakes.iter().map(|m| m.spot.line).collect();
    let start = Spot { line: 1, column: 1 };
    let Some((first, body)) = statements.split_first() else {
        if mistakes.is_empty() {
            mistakes.push(Mistake::new(start, format!("expected {HEADERS}, found nothing")));
        }
        return Err(wrong(mistakes));
    };
    let header = match header(first) {
        Ok(header) => header,
        Err(m) => {
            mistakes.push(m);
            return Err(wrong(mistakes));
        }
    };
    let house = match house_named(&header, given, fetch) {
        Ok(house) => house,
        Err((_, NoHouse::Mistakes(its))) => return Err(its),
        Err((spot, NoHouse::Message(says))) => {
            mistakes.push(Mistake::new(spot, says));
            return Err(wrong(mistakes));
        }
    };
    let text = content(&header, house, Cursor::new(first).spot(), body, &mut mistakes);
    // A line with signs that mean nothing isn't blamed for what it then lacks.
    let more = mistakes.split_off(unread.len());
    mistakes.extend(more.into_iter().filter(|m| !unread.contains(&m.spot.line)));
    mistakes.sort_by_key(|m| m.spot);
    match mistakes.is_empty() {
        true => Ok(text),
        false => Err(wrong(mistakes)),
    }
}

/// The house that the text names, else the one given.
fn house_named(
    header: &Header,
    given: Option<&House>,
    fetch: Fetch,
) -> Result<Option<House>, (Spot, NoHouse)> {
    match &header.over {
        None => Ok(given.cloned()),
        Some((name, spot)) => fetch(name).map(Some).map_err(|no| (*spot, no)),
    }
}

const WORDS: [&str; 5] = ["house", "book", "sheet", "plan", "events"];
const HEADERS: &str = "'house', 'book', 'sheet', 'plan' or 'events' in the first line";

/// "sheet over house.txt", "plan with jobs".
fn header(first: &Statement) -> Read<Header> {
    let mut c = Cursor::new(first);
    let what = if c.eat("house") {
        c.finish()?;
        What::House
    } else if c.eat("book") {
        What::Rules(Kind::Book)
    } else if c.eat("sheet") {
        What::Rules(Kind::Sheet)
    } else if c.eat("plan") {
        What::Plan { jobs: c.eat("with jobs") }
    } else if c.eat("events") {
        What::Events { jobs: c.eat("with jobs") }
    } else {
        let near = c.quoted_or_word("").map(|word| hint(&word, WORDS.into_iter()));
        let near = near.unwrap_or_default();
        return Cursor::new(first)
            .expected(HEADERS)
            .map_err(|m| Mistake::new(m.spot, m.says + &near));
    };
    let over = match c.eat("over") {
        true => {
            let spot = c.spot();
            Some((c.quoted_or_word("the file of the house")?, spot))
        }
        false => None,
    };
    match c.done() {
        true => Ok(Header { what, over }),
        false => c.expected("'over' and the file of the house, or the end of the line"),
    }
}

fn content(
    header: &Header,
    house: Option<House>,
    start: Spot,
    body: &[Statement],
    mistakes: &mut Vec<Mistake>,
) -> Text {
    match header.what {
        What::House => {
            if body.is_empty() {
                mistakes.push(Mistake::new(start, "a house has a 'timeline'"));
            }
            Text::House(house::read(body, mistakes))
        }
        What::Rules(kind) => {
            let own = |s: &Statement| !Cursor::new(s).sees("rule");
            let (lines, rules) = body.split_at(body.iter().take_while(|s| own(s)).count());
            let house = house_of_rules(header, house, start, lines, mistakes);
            Text::Rules(rules::read(kind, house, rules, mistakes))
        }
        What::Plan { jobs } => {
            let names = Names { house: house.as_ref(), jobs };
            let plan = plan::read(&names, start, body, mistakes);
            Text::Plan(plan, house)
        }
        What::Events { jobs } => {
            let names = Names { house: house.as_ref(), jobs };
            let events = plan::events(&names, body, mistakes);
            Text::Events(events, house)
        }
    }
}

/// A book's or sheet's house: its own timelines, else the one it names, else the
/// one given.
fn house_of_rules(
    header: &Header,
    house: Option<House>,
    start: Spot,
    lines: &[Statement],
    mistakes: &mut Vec<Mistake>,
) -> House {
    if lines.is_empty() {
        return house.unwrap_or_else(|| {
            let says = "these rules have no house: write 'over' and its file, give --house, or \
                put the timelines here";
            mistakes.push(Mistake::new(start, says));
            House::default()
        });
    }
    if header.over.is_some() {
        mistakes.extend(Cursor::new(&lines[0]).expected::<()>("'rule'").err());
        return house.unwrap_or_default();
    }
    house::read(lines, mistakes)
}
