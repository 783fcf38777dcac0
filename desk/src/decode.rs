//! From words to what they say: everything for sound words, nothing for others.
//! It decides nothing: why words are refused is the judge's to say.

use crate::model::{
    Action, Ask, Event, Events, House, Kind, Named, Place, Plan, Rule, Rules, Term, Timeline,
    Token, Value, Way,
};
use crate::words::{LAST, MOST_TOKENS, MOST_WORDS, N};
use std::ops::RangeInclusive;

/// Counts that tables 0 to 5 may have.
pub const COUNTS: [RangeInclusive<u32>; 6] =
    [1..=16, 1..=512, 0..=64, 0..=1_024, 0..=2_048, 0..=2_048];

/// Words of a record of tables 0 to 5.
pub fn widths(kind: Kind) -> [usize; 6] {
    [2, 3, 4, 4, 2, kind.ask_words()]
}

/// The tables of a book or sheet, each cut into records, not yet looked at.
pub struct Tables<'a> {
    pub kind: Kind,
    parts: [&'a [u32]; 6],
}

impl<'a> Tables<'a> {
    pub fn read(words: &'a [u32]) -> Option<Tables<'a>> {
        let kind = match words.first()? {
            1 => Kind::Book,
            2 => Kind::Sheet,
            _ => return None,
        };
        if words.len() < 14 || words.len() > MOST_WORDS || words[1] as usize != words.len() {
            return None;
        }
        let mut parts: [&[u32]; 6] = [&[]; 6];
        let mut offset = 14;
        for (table, (part, width)) in parts.iter_mut().zip(widths(kind)).enumerate() {
            let [count, at] = [words[2 + 2 * table], words[3 + 2 * table]];
            if !COUNTS[table].contains(&count) || at as usize != offset {
                return None;
            }
            *part = words.get(offset..offset + count as usize * width)?;
            offset += part.len();
        }
        (offset == words.len()).then_some(Tables { kind, parts })
    }

    pub fn count(&self, table: usize) -> usize {
        self.parts[table].len() / widths(self.kind)[table]
    }

    pub fn records(&self, table: usize) -> impl Iterator<Item = &'a [u32]> {
        self.parts[table].chunks_exact(widths(self.kind)[table])
    }
}

/// Hands out ranges that follow each other without gaps.
struct Ranges(usize);

impl Ranges {
    fn next(&mut self, first: u32, number: u32, all: usize) -> Option<std::ops::Range<usize>> {
        let range = self.0..self.0.checked_add(number as usize)?;
        if first as usize != range.start || range.end > all {
            return None;
        }
        self.0 = range.end;
        Some(range)
    }
}

pub fn rules(words: &[u32]) -> Option<Rules> {
    let tables = Tables::read(words)?;
    let house = house(&tables)?;
    let ways = ways(&tables, &house)?;
    let mut used = Ranges(0);
    let mut rules = Vec::new();
    for r in tables.records(2) {
        if !(1..=64).contains(&r[3]) {
            return None;
        }
        let trigger = match (r[0], r[1]) {
            (N, 0) => None,
            (timeline, value) => Some(named(&house, timeline, value)?),
        };
        let first_token = usize::from(trigger.is_none());
        let range = used.next(r[2], r[3], ways.len())?;
        let mut own = Vec::new();
        for (names, asks) in &ways[range] {
            let read = |r: &&[u32]| ask(r, first_token..=names.len());
            let asks = asks.iter().map(read).collect::<Option<_>>()?;
            own.push(Way { names: names.clone(), asks });
        }
        rules.push(Rule { title: None, trigger, ways: own });
    }
    (used.0 == ways.len()).then_some(Rules { kind: tables.kind, house, rules })
}

fn house(tables: &Tables) -> Option<House> {
    let values: Vec<_> = tables.records(1).collect();
    let mut used = Ranges(0);
    let mut timelines = Vec::new();
    for r in tables.records(0) {
        if !(1..=32).contains(&r[1]) {
            return None;
        }
        let range = used.next(r[0], r[1], values.len())?;
        let own = values[range].iter().map(|v| value(v, r[1])).collect::<Option<_>>()?;
        timelines.push(Timeline { name: None, values: own });
    }
    (used.0 == values.len()).then_some(House { timelines })
}

fn value(r: &[u32], number: u32) -> Option<Value> {
    let [least, greatest, then] = [r[0], r[1], r[2]];
    let long = greatest == N || (least..=LAST).contains(&greatest);
    let known = u64::from(then) < 1 << number;
    ((1..=LAST).contains(&least) && long && known).then_some(Value {
        name: None,
        least,
        greatest,
        then,
    })
}

fn named(house: &House, timeline: u32, value: u32) -> Option<Named> {
    let place = Place { timeline: timeline as usize, value: value as usize };
    house.timelines.get(place.timeline)?.values.get(place.value)?;
    Some(Named { place, called: None })
}

type RawWay<'a> = (Vec<Named>, Vec<&'a [u32]>);

/// The alternatives with their names, and their atoms or constraints as records.
fn ways<'a>(tables: &Tables<'a>, house: &House) -> Option<Vec<RawWay<'a>>> {
    let all_names: Vec<_> = tables.records(4).collect();
    let all_asks: Vec<_> = tables.records(5).collect();
    let (mut names, mut asks) = (Ranges(0), Ranges(0));
    let mut ways = Vec::new();
    for r in tables.records(3) {
        if r[1] > 4 || r[3] as usize > tables.kind.most_asks() {
            return None;
        }
        let own = names.next(r[0], r[1], all_names.len())?;
        let own = all_names[own].iter().map(|n| named(house, n[0], n[1])).collect::<Option<_>>()?;
        let range = asks.next(r[2], r[3], all_asks.len())?;
        ways.push((own, all_asks[range].to_vec()));
    }
    (names.0 == all_names.len() && asks.0 == all_asks.len()).then_some(ways)
}

/// One atom or constraint; `tokens` are those that it may speak of.
fn ask(r: &[u32], tokens: RangeInclusive<usize>) -> Option<Ask> {
    let token = |argument: u32| tokens.contains(&(argument as usize)).then_some(argument as usize);
    if let &[left, right, set] = r {
        let (left, right) = (token(left)?, token(right)?);
        return (1..=8_191).contains(&set).then_some(Ask::Relation { left, right, set });
    }
    let &[l, la, r, ra, lower, upper] = r else { return None };
    if (l, r) == (4, 4) {
        let (left, right) = (token(la)?, token(ra)?);
        return ((lower, upper) == (0, 0)).then_some(Ask::SameJob { left, right });
    }
    let term = |kind: u32, argument: u32| match kind {
        0 => token(argument).map(Term::Start),
        1 => token(argument).map(Term::End),
        2 => (argument <= LAST).then_some(Term::Time(argument)),
        3 => (argument == 0).then_some(Term::PlanEnd),
        _ => None,
    };
    let (left, right) = (term(l, la)?, term(r, ra)?);
    let bounds = lower <= LAST && (upper == N || (lower..=LAST).contains(&upper));
    bounds.then_some(Ask::Bound { left, right, lower, upper })
}

/// A plan whose words are in order (nothing of 5 to 7), whatever its tokens are.
pub fn plan(words: &[u32]) -> Option<Plan> {
    let jobs = match words.first()? {
        1 => false,
        2 => true,
        _ => return None,
    };
    let number = *words.get(2)? as usize;
    if words.len() > MOST_WORDS || words[1] as usize != words.len() || !(1..=16).contains(&number) {
        return None;
    }
    let heads = words.get(3..3 + 2 * number)?;
    let mut tokens = words[3 + 2 * number..].chunks_exact(if jobs { 3 } else { 2 });
    let all = tokens.len();
    if !tokens.remainder().is_empty() {
        return None;
    }
    let mut used = Ranges(0);
    let mut lines = Vec::new();
    for head in heads.chunks_exact(2) {
        let range = used.next(head[0], head[1], all)?;
        if range.len() > MOST_TOKENS {
            return None;
        }
        let own = tokens.by_ref().take(range.len());
        lines.push(own.map(token).collect());
    }
    (used.0 == all).then_some(Plan { jobs, lines })
}

fn token(r: &[u32]) -> Token {
    Token { value: r[0], duration: r[1], job: r.get(2).copied().unwrap_or(0) }
}

/// A list of events whose words are in order; times are sums of delays.
pub fn events(words: &[u32]) -> Option<Events> {
    let jobs = match words.first()? {
        1 => false,
        2 => true,
        _ => return None,
    };
    let width = if jobs { 4 } else { 3 };
    let number = *words.get(2)?;
    if words[1] as usize != words.len() {
        return None;
    }
    let mut rest = &words[3..];
    let mut time = 0;
    let mut events = Vec::new();
    while let [delay, count, more @ ..] = rest {
        let actions = more.get(..(*count as usize).checked_mul(width)?)?;
        if actions.is_empty() {
            return None;
        }
        rest = &more[actions.len()..];
        time += u64::from(*delay);
        let actions = actions.chunks_exact(width).map(action).collect::<Option<_>>()?;
        events.push(Event { time, actions });
    }
    (rest.is_empty() && events.len() == number as usize).then_some(Events { jobs, events })
}

fn action(r: &[u32]) -> Option<Action> {
    let job = r.get(3).copied().unwrap_or(0);
    (r[2] <= 1).then_some(Action { timeline: r[0], value: r[1], starts: r[2] == 1, job })
}
