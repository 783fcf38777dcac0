//! `judge` and `say`: the judge's line and what it means.

use crate::call::{Call, Wrong};
use crate::{draw, files, proved, Done};
use desk::answer::sentence::{self, Case};
use desk::answer::Answer;
use desk::model::{House, Kind, Plan, Rules};
use desk::text::Text;
use desk::{decode, encode, words};

/// A book or sheet as bytes and, if it is sound, as what it says.
struct Book {
    kind: Kind,
    bytes: Vec<u8>,
    rules: Option<Rules>,
}

/// The kind that words claim to be.
fn kind_of(bytes: &[u8]) -> Kind {
    match bytes.get(..4) {
        Some([2, 0, 0, 0]) => Kind::Sheet,
        _ => Kind::Book,
    }
}

fn ask(kind: Kind, book: &[u8], plan: &[u8]) -> Answer {
    match kind {
        Kind::Book => proved::judge(book, plan),
        Kind::Sheet => proved::judge_sheet(book, plan),
    }
}

fn line(answer: Answer) -> String {
    answer.map(|number| number.to_string()).join(" ")
}

/// Puts a house's names into rules that come from words.
pub fn give_names(rules: &mut Rules, house: Option<House>, path: &str) -> Result<(), Wrong> {
    let Some(house) = house else { return Ok(()) };
    same_house(&house, &rules.house).map_err(|says| Wrong(format!("{path}: {says}")))?;
    for (own, named) in rules.house.timelines.iter_mut().zip(house.timelines) {
        own.name = named.name;
        for (value, named) in own.values.iter_mut().zip(named.values) {
            value.name = named.name;
        }
    }
    Ok(())
}

/// Whether two houses have the same timelines and values, by number and name.
fn same_house(one: &House, other: &House) -> Result<(), String> {
    let (a, b) = (one.timelines.len(), other.timelines.len());
    if a != b {
        return Err(format!("the house is another one: it has {a} timelines, and here are {b}"));
    }
    for (number, (a, b)) in one.timelines.iter().zip(&other.timelines).enumerate() {
        let differ = |a: &Option<String>, b: &Option<String>| a.is_some() && b.is_some() && a != b;
        let names = a.values.iter().zip(&b.values).any(|(a, b)| differ(&a.name, &b.name));
        if a.values.len() != b.values.len() || names || differ(&a.name, &b.name) {
            let shown = one.timeline(number);
            return Err(format!("the house is another one: timeline {number}, {shown}, differs"));
        }
    }
    Ok(())
}

fn book(path: &str, house: Option<House>) -> Result<Book, Wrong> {
    if files::is_words(path) {
        let bytes = files::bytes(path)?;
        let mut rules = words::from_bytes(&bytes).and_then(|words| decode::rules(&words));
        if let Some(rules) = &mut rules {
            give_names(rules, house, path)?;
        }
        return Ok(Book { kind: kind_of(&bytes), bytes, rules });
    }
    match files::text(path, house.as_ref())? {
        Text::Rules(rules) => {
            let bytes = words::to_bytes(&encode::rules(&rules));
            Ok(Book { kind: rules.kind, bytes, rules: Some(rules) })
        }
        _ => Err(Wrong(format!("{path} is no book or sheet; 'tteok judge BOOK PLAN'"))),
    }
}

/// A plan's bytes and, if they are in order, what they say.
fn plan(path: &str, house: Option<&House>) -> Result<(Vec<u8>, Option<Plan>), Wrong> {
    if files::is_words(path) {
        let bytes = files::bytes(path)?;
        let plan = words::from_bytes(&bytes).and_then(|words| decode::plan(&words));
        return Ok((bytes, plan));
    }
    match files::text(path, house)? {
        Text::Plan(plan, own) => {
            if let (Some(own), Some(house)) = (&own, house) {
                same_house(own, house).map_err(|says| Wrong(format!("{path}: {says}")))?;
            }
            Ok((words::to_bytes(&encode::plan(&plan)), Some(plan)))
        }
        _ => Err(Wrong(format!("{path} is no plan; 'tteok judge BOOK PLAN'"))),
    }
}

pub fn judge(call: &Call) -> Result<Done, Wrong> {
    let [book_path, plan_path] = call.exactly("judge")?;
    let given = files::house(call.house.as_deref())?;
    let book = book(book_path, given.clone())?;
    let house = book.rules.as_ref().map(|r| r.house.clone()).or(given);
    let (plan_bytes, plan) = plan(plan_path, house.as_ref())?;
    let answer = ask(book.kind, &book.bytes, &plan_bytes);
    let told = sentence::tell(
        answer,
        &Case {
            kind: book.kind,
            book: &book.bytes,
            rules: book.rules.as_ref(),
            plan_bytes: &plan_bytes,
            plan: plan.as_ref(),
        },
    );
    let mut says = format!("{}\n{}\n", line(answer), told.lines.join("\n"));
    if call.text || call.svg.is_some() {
        says += &match &plan {
            Some(plan) => draw::picture(call, plan, house.as_ref(), line(answer), &told)?,
            None => "No picture: the plan's words aren't in order.\n".to_string(),
        };
    }
    Ok(Done { says, refused: answer[0] != 0 })
}

/// Words that aren't shown: what the judge says of them, if they are a book.
pub fn refused_book(path: &str, bytes: &[u8]) -> Result<Done, Wrong> {
    let kind = kind_of(bytes);
    let answer = ask(kind, bytes, &[]);
    let looks_like_a_book = bytes.get(12..16) == Some(&[14, 0, 0, 0]);
    if !(1..=4).contains(&answer[0]) || !looks_like_a_book {
        return Err(Wrong(format!("{path} is no sound book, sheet, plan or list of events")));
    }
    let case = Case { kind, book: bytes, rules: None, plan_bytes: &[], plan: None };
    let told = sentence::tell(answer, &case);
    let says = format!("{}\n{}\n", line(answer), told.lines.join("\n"));
    Ok(Done { says, refused: true })
}

pub fn say(call: &Call) -> Result<Done, Wrong> {
    let mut answer = [0; 4];
    if call.files.is_empty() || call.files.len() > 4 {
        return Err(Wrong::new("'say' takes one to four numbers\n'tteok say --help' says more"));
    }
    for (number, word) in answer.iter_mut().zip(&call.files) {
        let wrong = |_| Wrong(format!("'say' takes numbers, found '{word}'"));
        *number = word.parse().map_err(wrong)?;
    }
    let house = files::house(call.house.as_deref())?.unwrap_or_default();
    Ok(Done::new(format!("{}\n", sentence::say(answer, &house))))
}
