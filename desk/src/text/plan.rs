//! Plans and lists of events, read from text.

use super::cursor::{Cursor, Name, Read};
use super::lex::Statement;
use super::mistake::{Mistake, Spot, MOST_MISTAKES};
use super::place::timeline_of;
use crate::encode;
use crate::model::{Action, Event, Events, House, Plan, Token};
use crate::words::{MOST_TIMELINES, MOST_TOKENS, MOST_WORDS};

const NO_HOUSE: &str = "is a name, and the text names no house: write 'plan over house.txt', \
    give --house, or use numbers ('timeline 0', 'value 1')";

/// The house to look names up in, if there is one, and whether tokens have jobs.
pub struct Names<'a> {
    pub house: Option<&'a House>,
    pub jobs: bool,
}

impl Names<'_> {
    fn timeline(&self, c: &mut Cursor) -> Read<usize> {
        let spot = c.spot();
        let name = c.name("timeline", "the name of a timeline")?;
        let found = match (self.house, &name) {
            (Some(house), _) => timeline_of(house, &name),
            (None, Name::Number(n)) if (*n as usize) < MOST_TIMELINES => Ok(*n as usize),
            (None, Name::Number(_)) => {
                Err(format!("a plan has at most {MOST_TIMELINES} timelines"))
            }
            (None, Name::Said(said)) => Err(format!("'{said}' {NO_HOUSE}")),
        };
        found.map_err(|says| Mistake::new(spot, says))
    }

    fn shown(&self, timeline: usize) -> String {
        self.house.map_or(format!("timeline {timeline}"), |house| house.timeline(timeline))
    }

    /// A number may be one that the timeline hasn't got: the judge says so.
    fn value(&self, timeline: usize, c: &mut Cursor) -> Read<u32> {
        let spot = c.spot();
        let found = match (self.house, c.name("value", "the name of a value")?) {
            (_, Name::Number(number)) => Ok(number),
            (Some(house), Name::Said(name)) => house.find_value(timeline, &name).map(|v| v as u32),
            (None, Name::Said(said)) => Err(format!("'{said}' {NO_HOUSE}")),
        };
        found.map_err(|says| Mistake::new(spot, says))
    }

    /// "of job 4711", where it stands.
    fn job(&self, c: &mut Cursor) -> Read<u32> {
        let spot = c.spot();
        if !c.eat("of") {
            return Ok(0);
        }
        if !self.jobs {
            let says = "only 'plan with jobs' or 'events with jobs' has jobs";
            return Err(Mistake::new(spot, says));
        }
        c.eat("job");
        c.number("a job", 0..=u32::MAX)
    }

    fn token(&self, timeline: usize, c: &mut Cursor) -> Read<Token> {
        let value = self.value(timeline, c)?;
        c.eat("for");
        let duration = c.number("a duration", 0..=u32::MAX)?;
        Ok(Token { value, duration, job: self.job(c)? })
    }
}

/// Goes on after a comma; true at the end of the line.
fn last(c: &mut Cursor) -> Read<bool> {
    if c.eat_sign(',') {
        return Ok(false);
    }
    match c.done() {
        true => Ok(true),
        false => c.expected("',' or the end of the line"),
    }
}

pub fn read(
    names: &Names,
    start: Spot,
    statements: &[Statement],
    mistakes: &mut Vec<Mistake>,
) -> Plan {
    let known = names.house.map_or(0, |house| house.timelines.len());
    let mut lines: Lines = vec![None; known];
    for statement in statements {
        let read = one_line(names, &mut Cursor::new(statement), &mut lines, mistakes);
        mistakes.extend(read.err());
    }
    missing(names, start, &lines, mistakes);
    let lines = lines.into_iter().map(Option::unwrap_or_default).collect();
    let plan = Plan { jobs: names.jobs, lines };
    let words = encode::plan(&plan).len();
    if mistakes.is_empty() && words > MOST_WORDS {
        let says = format!("a plan has at most {MOST_WORDS} words, this has {words}");
        mistakes.push(Mistake::new(start, says));
    }
    plan
}

/// The tokens of each timeline whose line has been read.
type Lines = Vec<Option<Vec<Token>>>;

/// "decoder: latin1 for 10, utf8 for 30".
fn one_line(
    names: &Names,
    c: &mut Cursor,
    lines: &mut Lines,
    mistakes: &mut Vec<Mistake>,
) -> Read<()> {
    let spot = c.spot();
    let timeline = names.timeline(c)?;
    if lines.len() <= timeline {
        lines.resize(timeline + 1, None);
    }
    let tokens = line(names, timeline, c, mistakes);
    let (number, shown) = (tokens.len(), names.shown(timeline));
    if lines[timeline].replace(tokens).is_some() {
        return Err(Mistake::new(spot, format!("{shown} stands here twice")));
    }
    if number > MOST_TOKENS {
        let says = format!("{shown} has {number} tokens; a timeline has at most {MOST_TOKENS}");
        return Err(Mistake::new(spot, says));
    }
    Ok(())
}

/// Every timeline stands in a plan, also an empty one.
fn missing(names: &Names, start: Spot, lines: &[Option<Vec<Token>>], mistakes: &mut Vec<Mistake>) {
    if lines.is_empty() && mistakes.is_empty() {
        mistakes.push(Mistake::new(start, "a plan has a line for each timeline"));
    }
    // Where a line couldn't be read, it may be the one that seems to be missing.
    if !mistakes.is_empty() {
        return;
    }
    for (number, _) in lines.iter().enumerate().filter(|(_, line)| line.is_none()) {
        let shown = names.shown(number);
        let says = format!("{shown} is missing; if it is empty, write '{shown}: nothing'");
        mistakes.push(Mistake::new(start, says));
    }
}

/// The tokens after a timeline's name; after a mistake, from the next comma on.
fn line(names: &Names, timeline: usize, c: &mut Cursor, mistakes: &mut Vec<Mistake>) -> Vec<Token> {
    let mut tokens = Vec::new();
    if !c.eat_sign(':') {
        mistakes.extend(c.expected::<()>("':' and the tokens").err());
        return tokens;
    }
    if c.eat("nothing") {
        mistakes.extend(c.finish().err());
        return tokens;
    }
    loop {
        let read = names.token(timeline, c).and_then(|token| Ok((token, last(c)?)));
        let end = match read {
            Ok((token, end)) => {
                tokens.push(token);
                end
            }
            Err(m) => {
                mistakes.push(m);
                mistakes.len() > MOST_MISTAKES || !c.skip_past_comma()
            }
        };
        if end {
            return tokens;
        }
    }
}

pub fn events(names: &Names, statements: &[Statement], mistakes: &mut Vec<Mistake>) -> Events {
    let mut events: Vec<Event> = Vec::new();
    for statement in statements {
        let before = events.last().map_or(0, |e| e.time);
        match event(names, before, &mut Cursor::new(statement)) {
            Ok(event) => events.push(event),
            Err(m) => mistakes.push(m),
        }
    }
    Events { jobs: names.jobs, events }
}

/// "at 10: decoder ends latin1, decoder starts utf8".
fn event(names: &Names, before: u64, c: &mut Cursor) -> Read<Event> {
    c.expect("at")?;
    let spot = c.spot();
    let time = u64::from(c.number("a time", 0..=u32::MAX)?);
    if time < before {
        return Err(Mistake::new(
            spot,
            format!("events go in time order; the one before is at {before}"),
        ));
    }
    if !c.eat_sign(':') {
        return c.expected("':' and what starts or ends");
    }
    let mut actions = Vec::new();
    loop {
        let timeline = names.timeline(c)?;
        let starts = c.eat("starts");
        if !starts && !c.eat("ends") {
            return c.expected("'starts' or 'ends'");
        }
        let value = names.value(timeline, c)?;
        actions.push(Action { timeline: timeline as u32, value, starts, job: names.job(c)? });
        if last(c)? {
            return Ok(Event { time, actions });
        }
    }
}
