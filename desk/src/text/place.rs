//! "utf8 on decoder": a value and its timeline, by name or number.

use super::cursor::{Cursor, Name, Read};
use super::mistake::{Mistake, Spot};
use crate::model::{House, Named, Place};

/// The number of a timeline that the house has.
pub fn timeline_of(house: &House, name: &Name) -> Result<usize, String> {
    match name {
        Name::Said(name) => house.find_timeline(name),
        Name::Number(number) if (*number as usize) < house.timelines.len() => Ok(*number as usize),
        Name::Number(number) => {
            let all = house.timelines.len();
            Err(format!("no timeline {number}: the house has {all}, counted from 0"))
        }
    }
}

/// The number of a value that the timeline has.
pub fn value_of(house: &House, timeline: usize, name: &Name) -> Result<usize, String> {
    let all = house.timelines.get(timeline).map_or(0, |t| t.values.len());
    match name {
        Name::Said(name) => house.find_value(timeline, name),
        Name::Number(number) if (*number as usize) < all => Ok(*number as usize),
        Name::Number(number) => Err(format!(
            "no value {number} on {}: it has {all}, counted from 0",
            house.timeline(timeline)
        )),
    }
}

/// A token as a rule says it, resolved where it can be. What it is called stays
/// known with an unknown value, so that one mistake is told once.
pub fn named(c: &mut Cursor, house: &House, mistakes: &mut Vec<Mistake>) -> Read<Named> {
    let value_spot = c.spot();
    let value = c.name("value", "the name of a value")?;
    c.expect("on")?;
    let spot = c.spot();
    let timeline = c.name("timeline", "the name of a timeline")?;
    let called = match c.eat_sign(',') || c.sees("called") {
        true => {
            c.expect("called")?;
            Some(c.plain_name("what the token is called")?)
        }
        false => None,
    };
    c.finish()?;
    let found = place(house, (&value, value_spot), (&timeline, spot));
    let place = found.unwrap_or_else(|m| {
        mistakes.push(m);
        Place { timeline: 0, value: 0 }
    });
    Ok(Named { place, called })
}

fn place(house: &House, value: (&Name, Spot), timeline: (&Name, Spot)) -> Read<Place> {
    let line = timeline_of(house, timeline.0).map_err(|says| Mistake::new(timeline.1, says))?;
    let value = value_of(house, line, value.0).map_err(|says| Mistake::new(value.1, says))?;
    Ok(Place { timeline: line, value })
}
