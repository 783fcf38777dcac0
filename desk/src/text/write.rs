//! Writing a text. What is written reads back to the same words.

use super::mistake::list;
use super::name::{token_names, written};
use crate::model::{Ask, Events, House, Named, Plan, Rule, Rules, Term, Value, Way};
use crate::relation;
use crate::words::N;

/// A plan's lines are broken behind the comma that goes over this.
const WIDTH: usize = 100;

pub fn house(house: &House) -> String {
    format!("house\n{}", timelines(house))
}

fn timelines(house: &House) -> String {
    let mut text = String::new();
    for (number, timeline) in house.timelines.iter().enumerate() {
        let name = timeline.name.as_deref().map_or(number.to_string(), written);
        text += &format!("\ntimeline {name}\n");
        for (own, value) in timeline.values.iter().enumerate() {
            let lasts = lasts(value);
            let then = successors(house, number, value);
            text += &format!("    {} {lasts}, then {then}\n", house.value(number, own));
        }
    }
    text
}

/// "lasts 5 to 60".
pub fn lasts(value: &Value) -> String {
    match (value.least, value.greatest) {
        (least, N) => format!("lasts at least {least}"),
        (least, greatest) if least == greatest => format!("lasts exactly {least}"),
        (least, greatest) => format!("lasts {least} to {greatest}"),
    }
}

/// "latin1 or utf8", "anything", "nothing".
pub fn successors(house: &House, timeline: usize, value: &Value) -> String {
    let number = house.timelines[timeline].values.len();
    let names: Vec<String> = (0..number)
        .filter(|v| value.may_follow(*v as u32))
        .map(|v| house.value(timeline, v))
        .collect();
    match names.len() {
        0 => "nothing".to_string(),
        all if all == number && number > 1 => "anything".to_string(),
        _ => list(&names, "or"),
    }
}

pub fn rules(rules: &Rules) -> String {
    let mut text = format!("{}\n{}", rules.kind.word(), timelines(&rules.house));
    for rule in &rules.rules {
        text += &one_rule(&rules.house, rule);
    }
    text
}

fn one_rule(house: &House, rule: &Rule) -> String {
    let title = rule.title.as_ref().map_or(String::new(), |t| format!(" \"{t}\""));
    let trigger = match &rule.trigger {
        None => "in every plan".to_string(),
        Some(named) => {
            let called = named.called.as_deref().map(|c| format!(", called {}", written(c)));
            format!("for each {}{}", place(house, named), called.unwrap_or_default())
        }
    };
    let mut text = format!("\nrule{title}\n    {trigger}\n");
    let indent = if rule.ways.len() > 1 { "        " } else { "    " };
    for (number, way) in rule.ways.iter().enumerate() {
        if rule.ways.len() > 1 {
            text += if number == 0 { "    either\n" } else { "    or\n" };
        }
        let names = token_names(rule, way);
        for (named, called) in way.names.iter().zip(&names[1..]) {
            text += &format!("{indent}some {}, called {called}\n", place(house, named));
        }
        for ask in &way.asks {
            text += &format!("{indent}{}\n", self::ask(ask, &names));
        }
    }
    text
}

/// "utf8 on decoder".
pub fn place(house: &House, named: &Named) -> String {
    let place = named.place;
    format!("{} on {}", house.value(place.timeline, place.value), house.timeline(place.timeline))
}

/// An atom or a constraint in the alternative's own names.
pub fn ask_in(rule: &Rule, way: &Way, ask: &Ask) -> String {
    self::ask(ask, &token_names(rule, way))
}

fn ask(ask: &Ask, names: &[String]) -> String {
    match *ask {
        Ask::Bound { left, right, lower, upper } => bound(left, right, lower, upper, names),
        Ask::SameJob { left, right } => {
            format!("{} is of the same job as {}", names[left], names[right])
        }
        Ask::Relation { left, right, set } => {
            format!("{} {} {}", names[left], relations(set), names[right])
        }
    }
}

/// "starts, equals, is during or finishes".
pub fn relations(set: u32) -> String {
    if set == relation::ALL {
        return "is in any relation to".to_string();
    }
    let verbs: Vec<String> = relation::members(set).map(relation::verb).collect();
    list(&verbs, "or")
}

fn bound(left: Term, right: Term, lower: u32, upper: u32, names: &[String]) -> String {
    let token = |term| matches!(term, Term::Start(_) | Term::End(_));
    // "J ends before 400", and not "time 400 after J ends".
    let before = token(left) && !token(right);
    let (subject, object, side) = match before && (lower, upper) != (0, 0) {
        true => (left, right, "before"),
        false => (right, left, "after"),
    };
    let subject = match subject {
        Term::Time(time) => format!("time {time} is"),
        Term::PlanEnd => "the plan ends".to_string(),
        term => moment(term, names),
    };
    let object_text = moment(object, names);
    match (lower, upper) {
        (0, 0) if token(object) => format!("{subject} when {object_text}"),
        (0, 0) => format!("{subject} at {object_text}"),
        _ => format!("{subject} {} {object_text}", amount(lower, upper, side)),
    }
}

/// "at least 10 and at most 20 after".
pub fn amount(lower: u32, upper: u32, side: &str) -> String {
    match (lower, upper) {
        (0, N) => format!("at or {side}"),
        (1, N) => side.to_string(),
        (_, N) => format!("at least {lower} {side}"),
        _ if lower == upper => format!("exactly {lower} {side}"),
        (0, _) => format!("at most {upper} {side}"),
        _ => format!("at least {lower} and at most {upper} {side}"),
    }
}

fn moment(term: Term, names: &[String]) -> String {
    match term {
        Term::Start(token) => format!("{} starts", names[token]),
        Term::End(token) => format!("{} ends", names[token]),
        Term::Time(time) => time.to_string(),
        Term::PlanEnd => "the end of the plan".to_string(),
    }
}

/// A plan; names come from the house, and `over` is the file it is in.
pub fn plan(plan: &Plan, house: &House, over: Option<&str>) -> String {
    let mut text = format!("plan{}{}\n\n", with_jobs(plan.jobs), over_file(over));
    for (timeline, line) in plan.lines.iter().enumerate() {
        let tokens = line.iter().map(|token| {
            let value = house.value(timeline, token.value as usize);
            format!("{value} for {}{}", token.duration, of_job(token.job))
        });
        text += &wrapped(&house.timeline(timeline), tokens);
    }
    text
}

fn with_jobs(jobs: bool) -> &'static str {
    if jobs {
        " with jobs"
    } else {
        ""
    }
}

fn over_file(over: Option<&str>) -> String {
    over.map_or(String::new(), |file| format!(" over {}", written(file)))
}

fn of_job(job: u32) -> String {
    match job {
        0 => String::new(),
        job => format!(" of job {job}"),
    }
}

/// "decoder: latin1 for 10, utf8 for 40", broken where it gets long.
fn wrapped(name: &str, tokens: impl Iterator<Item = String>) -> String {
    let mut text = String::new();
    let mut line = format!("{name}:");
    let mut empty = true;
    for token in tokens {
        if !empty {
            line.push(',');
            if line.chars().count() + token.chars().count() > WIDTH {
                text += &line;
                text.push('\n');
                line = "   ".to_string();
            }
        }
        line = format!("{line} {token}");
        empty = false;
    }
    let nothing = if empty { " nothing" } else { "" };
    format!("{text}{line}{nothing}\n")
}

/// A list of events, a line for each.
pub fn events(list: &Events, house: &House, over: Option<&str>) -> String {
    let mut text = format!("events{}{}\n\n", with_jobs(list.jobs), over_file(over));
    for event in &list.events {
        let actions = event.actions.iter().map(|action| {
            let timeline = action.timeline as usize;
            let verb = if action.starts { "starts" } else { "ends" };
            let value = house.value(timeline, action.value as usize);
            format!("{} {verb} {value}{}", house.timeline(timeline), of_job(action.job))
        });
        let actions: Vec<String> = actions.collect();
        text += &format!("at {}: {}\n", event.time, actions.join(", "));
    }
    text
}
