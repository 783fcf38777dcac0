//! `build` and `show`: from text to words and back.

use crate::call::{Call, Wrong};
use crate::{files, judge, Done};
use desk::model::House;
use desk::text::{write, Text};
use desk::{decode, encode, words};

pub fn build(call: &Call) -> Result<Done, Wrong> {
    let [path] = call.exactly("build")?;
    if files::is_words(path) {
        return Err(Wrong(format!("{path} is words already; 'tteok show' writes their text")));
    }
    let given = files::house(call.house.as_deref())?;
    let (file, words) = match files::text(path, given.as_ref())? {
        Text::House(_) => {
            let says = "is a house, which has no words of its own: build the rules over it";
            return Err(Wrong(format!("{path} {says}")));
        }
        Text::Rules(rules) => (rules.kind.word(), encode::rules(&rules)),
        Text::Plan(plan, _) => ("plan", encode::plan(&plan)),
        Text::Events(events, _) => ("events", encode::events(&events)),
    };
    let file = call.out.clone().unwrap_or_else(|| format!("{file}.bin"));
    files::write(&file, &words::to_bytes(&words))?;
    Ok(Done::new(format!("{file}: {} words\n", words.len())))
}

pub fn show(call: &Call) -> Result<Done, Wrong> {
    let [path] = call.exactly("show")?;
    let given = files::house(call.house.as_deref())?;
    if files::is_words(path) {
        return show_words(path, given, call.house.as_deref());
    }
    let none = House::default();
    let over = call.house.as_deref();
    let text = match files::text(path, given.as_ref())? {
        Text::House(house) => write::house(&house),
        Text::Rules(rules) => write::rules(&rules),
        Text::Plan(plan, house) => write::plan(&plan, house.as_ref().unwrap_or(&none), over),
        Text::Events(events, house) => {
            write::events(&events, house.as_ref().unwrap_or(&none), over)
        }
    };
    Ok(Done::new(text))
}

fn show_words(path: &str, house: Option<House>, over: Option<&str>) -> Result<Done, Wrong> {
    let bytes = files::bytes(path)?;
    let words = words::from_bytes(&bytes).unwrap_or_default();
    let names = house.clone().unwrap_or_default();
    if let Some(mut rules) = decode::rules(&words) {
        judge::give_names(&mut rules, house, path)?;
        return Ok(Done::new(write::rules(&rules)));
    }
    if let Some(plan) = decode::plan(&words) {
        return Ok(Done::new(write::plan(&plan, &names, over)));
    }
    if let Some(events) = decode::events(&words) {
        return Ok(Done::new(write::events(&events, &names, over)));
    }
    judge::refused_book(path, &bytes)
}
