//! Timelines with their values, read from text.

use super::cursor::{Cursor, Name, Read};
use super::lex::Statement;
use super::mistake::{Mistake, Spot};
use crate::model::{House, Timeline, Value};
use crate::words::{LAST, MOST_TIMELINES, MOST_VALUES, N};

/// What may follow a value, before all values are known.
enum Then {
    Anything,
    Names(Vec<(Name, Spot)>),
}

/// Reads "timeline .." blocks. Statements that stand before any are mistakes.
pub fn read(statements: &[Statement], mistakes: &mut Vec<Mistake>) -> House {
    let mut house = House::default();
    let mut blocks = Vec::new();
    for statement in statements {
        let mut c = Cursor::new(statement);
        if c.eat("timeline") {
            let name = heading(&mut c, &house).unwrap_or_else(|m| {
                mistakes.push(m);
                None
            });
            house.timelines.push(Timeline { name, values: Vec::new() });
            blocks.push((statement, Vec::new()));
        } else if let Some((_, lines)) = blocks.last_mut() {
            lines.push(statement);
        } else {
            mistakes.extend(c.expected::<()>("'timeline'").err());
        }
    }
    for (number, (heading, lines)) in blocks.iter().enumerate() {
        values(&mut house, number, heading, lines, mistakes);
        if number >= MOST_TIMELINES {
            let says = format!("a house has at most {MOST_TIMELINES} timelines");
            mistakes.push(Mistake::new(Cursor::new(heading).spot(), says));
        }
    }
    house
}

/// The name after "timeline"; a number only says which one it is.
fn heading(c: &mut Cursor, house: &House) -> Read<Option<String>> {
    let own = house.timelines.len();
    let spot = c.spot();
    if c.sees_number() {
        let number = c.number("the number of a timeline", 0..=u32::MAX)?;
        if number as usize != own {
            return Err(Mistake::new(spot, format!("this is timeline {own}, not {number}")));
        }
        c.finish()?;
        return Ok(None);
    }
    let name = c.plain_name("the name of a timeline")?;
    c.eat_sign(':');
    c.finish()?;
    if house.timelines.iter().any(|t| t.name.as_ref() == Some(&name)) {
        return Err(Mistake::new(spot, format!("there is a timeline '{name}' already")));
    }
    Ok(Some(name))
}

fn values(
    house: &mut House,
    timeline: usize,
    heading: &Statement,
    lines: &[&Statement],
    mistakes: &mut Vec<Mistake>,
) {
    let mut follow = Vec::new();
    for line in lines {
        let known = &house.timelines[timeline].values;
        let (value, then) = value(&mut Cursor::new(line), known).unwrap_or_else(|(value, m)| {
            mistakes.push(m);
            (value, Then::Names(Vec::new()))
        });
        house.timelines[timeline].values.push(value);
        follow.push(then);
    }
    if !(1..=MOST_VALUES).contains(&lines.len()) {
        let says = format!(
            "a timeline has 1 to {MOST_VALUES} values, {} has {}",
            house.timeline(timeline),
            lines.len()
        );
        mistakes.push(Mistake::new(Cursor::new(heading).spot(), says));
        return;
    }
    for (value, then) in follow.into_iter().enumerate() {
        match successors(house, timeline, then) {
            Ok(set) => house.timelines[timeline].values[value].then = set,
            Err(wrong) => mistakes.extend(wrong),
        }
    }
}

/// "utf8 lasts 5 to 60, then latin1 or utf8". With a mistake, what is known of
/// the value, so that others can name it.
fn value(c: &mut Cursor, known: &[Value]) -> Result<(Value, Then), (Value, Mistake)> {
    let mut value = Value { name: None, least: 1, greatest: N, then: 0 };
    let spot = c.spot();
    let name = c.name("value", "'timeline', 'rule' or the name of a value");
    let named = name.and_then(|name| match name {
        Name::Said(name) if known.iter().any(|v| v.name.as_ref() == Some(&name)) => {
            Err(Mistake::new(spot, format!("the timeline has a value '{name}' already")))
        }
        Name::Said(name) => Ok(Some(name)),
        Name::Number(number) if number as usize == known.len() => Ok(None),
        Name::Number(number) => {
            Err(Mistake::new(spot, format!("this is value {}, not {number}", known.len())))
        }
    });
    match named {
        Ok(name) => value.name = name,
        Err(m) => return Err((value, m)),
    }
    match line(c) {
        Ok(((least, greatest), then)) => Ok((Value { least, greatest, ..value }, then)),
        Err(m) => Err((value, m)),
    }
}

fn line(c: &mut Cursor) -> Read<((u32, u32), Then)> {
    let lasts = if c.eat("lasts") { duration(c)? } else { (1, N) };
    c.eat_sign(',');
    if !c.eat("then") {
        return c.expected("'lasts' or 'then' and what may follow");
    }
    let then = follow(c)?;
    c.finish()?;
    Ok((lasts, then))
}

fn duration(c: &mut Cursor) -> Read<(u32, u32)> {
    if c.eat("at least") {
        let least = c.number("the least duration", 1..=LAST)?;
        return match c.eat("and at most") {
            true => Ok((least, c.number("the greatest duration", least..=LAST)?)),
            false => Ok((least, N)),
        };
    }
    if c.eat("at most") {
        return Ok((1, c.number("the greatest duration", 1..=LAST)?));
    }
    if c.eat("exactly") {
        let duration = c.number("the duration", 1..=LAST)?;
        return Ok((duration, duration));
    }
    if !c.sees_number() {
        return c.expected("'5 to 60', 'at least 5', 'at most 60' or 'exactly 5'");
    }
    let least = c.number("the least duration", 1..=LAST)?;
    c.expect("to")?;
    Ok((least, c.number("the greatest duration", least..=LAST)?))
}

fn follow(c: &mut Cursor) -> Read<Then> {
    if c.eat("anything") {
        return Ok(Then::Anything);
    }
    let mut names = Vec::new();
    if c.eat("nothing") {
        return Ok(Then::Names(names));
    }
    loop {
        let spot = c.spot();
        names.push((c.name("value", "the name of a value, 'anything' or 'nothing'")?, spot));
        let comma = c.eat_sign(',');
        if !c.eat("or") && !comma {
            return Ok(Then::Names(names));
        }
    }
}

fn successors(house: &House, timeline: usize, then: Then) -> Result<u32, Vec<Mistake>> {
    let number = house.timelines[timeline].values.len();
    let names = match then {
        Then::Anything => return Ok(((1u64 << number) - 1) as u32),
        Then::Names(names) => names,
    };
    let mut set = 0;
    let mut mistakes = Vec::new();
    for (name, spot) in names {
        match super::place::value_of(house, timeline, &name) {
            Ok(value) => set |= 1 << value,
            Err(says) => mistakes.push(Mistake::new(spot, says)),
        }
    }
    match mistakes.is_empty() {
        true => Ok(set),
        false => Err(mistakes),
    }
}
