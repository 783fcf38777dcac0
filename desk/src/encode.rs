//! From what a text says to words. The layouts are in the header of each table's writer.

use crate::model::{Ask, Events, Kind, Named, Plan, Rules, Term};
use crate::words::N;

/// The words of a book or a sheet: 14 words of header, then tables 0 to 5.
pub fn rules(rules: &Rules) -> Vec<u32> {
    let tables = tables(rules);
    let widths = [2, 3, 4, 4, 2, rules.kind.ask_words()];
    let total = 14 + tables.iter().map(Vec::len).sum::<usize>();
    let mut words = vec![rules.kind.edition(), total as u32];
    let mut offset = 14;
    for (table, width) in tables.iter().zip(widths) {
        words.extend([(table.len() / width) as u32, offset as u32]);
        offset += table.len();
    }
    words.extend(tables.into_iter().flatten());
    words
}

fn tables(rules: &Rules) -> [Vec<u32>; 6] {
    let mut tables: [Vec<u32>; 6] = Default::default();
    let [variables, values, of_rules, of_ways, names, asks] = &mut tables;
    for timeline in &rules.house.timelines {
        variables.extend([(values.len() / 3) as u32, timeline.values.len() as u32]);
        for value in &timeline.values {
            values.extend([value.least, value.greatest, value.then]);
        }
    }
    for rule in &rules.rules {
        of_rules.extend(rule.trigger.as_ref().map_or([N, 0], place));
        of_rules.extend([(of_ways.len() / 4) as u32, rule.ways.len() as u32]);
        for way in &rule.ways {
            let first_ask = asks.len() / rules.kind.ask_words();
            of_ways.extend([(names.len() / 2) as u32, way.names.len() as u32]);
            of_ways.extend([first_ask as u32, way.asks.len() as u32]);
            names.extend(way.names.iter().flat_map(place));
            asks.extend(way.asks.iter().flat_map(|ask| ask_words(ask, rules.kind)));
        }
    }
    tables
}

fn place(named: &Named) -> [u32; 2] {
    [named.place.timeline as u32, named.place.value as u32]
}

fn ask_words(ask: &Ask, kind: Kind) -> Vec<u32> {
    match *ask {
        Ask::Bound { left, right, lower, upper } => {
            let ([l, la], [r, ra]) = (term(left), term(right));
            vec![l, la, r, ra, lower, upper]
        }
        Ask::SameJob { left, right } => vec![4, left as u32, 4, right as u32, 0, 0],
        Ask::Relation { left, right, set } => vec![left as u32, right as u32, set],
    }
    .into_iter()
    .take(kind.ask_words())
    .collect()
}

fn term(term: Term) -> [u32; 2] {
    match term {
        Term::Start(token) => [0, token as u32],
        Term::End(token) => [1, token as u32],
        Term::Time(time) => [2, time],
        Term::PlanEnd => [3, 0],
    }
}

/// The words of a plan: edition, total, lines; first token and count of each; tokens.
pub fn plan(plan: &Plan) -> Vec<u32> {
    let mut words = vec![if plan.jobs { 2 } else { 1 }, 0, plan.lines.len() as u32];
    let mut first = 0;
    for line in &plan.lines {
        words.extend([first, line.len() as u32]);
        first += line.len() as u32;
    }
    for token in plan.lines.iter().flatten() {
        words.extend([token.value, token.duration]);
        words.extend(plan.jobs.then_some(token.job));
    }
    words[1] = words.len() as u32;
    words
}

/// The words of a list: edition, total, events; delay and count of each; actions.
pub fn events(list: &Events) -> Vec<u32> {
    let mut words = vec![if list.jobs { 2 } else { 1 }, 0, list.events.len() as u32];
    let mut now = 0;
    for event in &list.events {
        words.extend([event.time.wrapping_sub(now) as u32, event.actions.len() as u32]);
        now = event.time;
        for action in &event.actions {
            words.extend([action.timeline, action.value, u32::from(action.starts)]);
            words.extend(list.jobs.then_some(action.job));
        }
    }
    words[1] = words.len() as u32;
    words
}
