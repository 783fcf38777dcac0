//! Sound houses, books, sheets, plans and lists of events, made at random.

use crate::model::*;
use crate::words::{LAST, MOST_WORDS, N};

/// A small generator of numbers (splitmix64), the same on every machine.
pub struct Rng(u64);

impl Rng {
    /// Each case has numbers of its own, so that it can be run again alone.
    pub fn new(seed: u64, case: u64) -> Rng {
        let mut rng = Rng(seed ^ case.wrapping_mul(0xA24B_AED4_963E_E407));
        rng.bits();
        rng
    }

    fn bits(&mut self) -> u64 {
        self.0 = self.0.wrapping_add(0x9E37_79B9_7F4A_7C15);
        let mut z = self.0;
        z = (z ^ (z >> 30)).wrapping_mul(0xBF58_476D_1CE4_E5B9);
        z = (z ^ (z >> 27)).wrapping_mul(0x94D0_49BB_1331_11EB);
        z ^ (z >> 31)
    }

    pub fn word(&mut self) -> u32 {
        (self.bits() >> 32) as u32
    }

    /// A number from `low` to `high`, both included.
    pub fn from(&mut self, low: u32, high: u32) -> u32 {
        let span = u64::from(high - low) + 1;
        low + ((u64::from(self.word()) * span) >> 32) as u32
    }

    pub fn percent(&mut self, chance: u32) -> bool {
        self.from(0, 99) < chance
    }

    pub fn pick<T: Copy>(&mut self, from: &[T]) -> T {
        from[self.from(0, from.len() as u32 - 1) as usize]
    }
}

/// How large the parts may get.
#[derive(Clone, Copy)]
pub struct Size {
    pub timelines: u32,
    pub values: u32,
    pub rules: u32,
    pub ways: u32,
    pub asks: u32,
    pub tokens: u32,
}

pub const SMALL: Size = Size { timelines: 3, values: 3, rules: 2, ways: 3, asks: 4, tokens: 6 };
pub const LARGE: Size =
    Size { timelines: 16, values: 32, rules: 64, ways: 12, asks: 32, tokens: 512 };

/// Names that a house may have, with the awkward ones.
const NAMES: [&str; 12] = [
    "utf8",
    "latin-1",
    "UTF-8 job",
    "job",
    "17",
    "value",
    "Either",
    "디코더",
    "a:b, c",
    "x'y",
    "2up",
    "or",
];

pub fn house(rng: &mut Rng, size: Size, names: bool) -> House {
    let timelines = rng.from(1, size.timelines);
    let mut house = House::default();
    for number in 0..timelines {
        let values = rng.from(1, size.values);
        let mut timeline = Timeline { name: name(rng, names, number), values: Vec::new() };
        for own in 0..values {
            let name = name(rng, names, own);
            timeline.values.push(value(rng, values, name));
        }
        house.timelines.push(timeline);
    }
    house
}

/// A name that no other number gets.
fn name(rng: &mut Rng, names: bool, number: u32) -> Option<String> {
    let own = NAMES.get(number as usize).map(|n| n.to_string());
    let name = own.unwrap_or_else(|| format!("n{number}"));
    (names && rng.percent(90)).then_some(name)
}

fn value(rng: &mut Rng, values: u32, name: Option<String>) -> Value {
    let least = match rng.from(0, 20) {
        0 => LAST,
        1 => rng.from(1, LAST),
        _ => rng.from(1, 4),
    };
    let greatest = match rng.from(0, 7) {
        0 => LAST,
        1 => least,
        2..=4 => N,
        _ => LAST.min(least + rng.from(0, 9)),
    };
    let mask = ((1u64 << values) - 1) as u32;
    let then = match rng.from(0, 5) {
        0 => 0,
        1..=3 => mask,
        _ => rng.word() & mask,
    };
    Value { name, least, greatest, then }
}

fn place(rng: &mut Rng, house: &House) -> Place {
    let timeline = rng.from(0, house.timelines.len() as u32 - 1) as usize;
    let values = house.timelines[timeline].values.len() as u32;
    Place { timeline, value: rng.from(0, values - 1) as usize }
}

pub fn rules(rng: &mut Rng, kind: Kind, house: House, size: Size) -> Rules {
    let mut rules = Rules { kind, house, rules: Vec::new() };
    for _ in 0..rng.from(0, size.rules) {
        let rule = rule(rng, kind, &rules.house, size);
        rules.rules.push(rule);
        if !fits(&rules) {
            rules.rules.pop();
            break;
        }
    }
    rules
}

fn fits(rules: &Rules) -> bool {
    let ways = || rules.rules.iter().flat_map(|r| &r.ways);
    let names = ways().map(|w| w.names.len()).sum::<usize>();
    let asks = ways().map(|w| w.asks.len()).sum::<usize>();
    let words = crate::encode::rules(rules).len();
    ways().count() <= 1_024 && names <= 2_048 && asks <= 2_048 && words <= MOST_WORDS
}

fn rule(rng: &mut Rng, kind: Kind, house: &House, size: Size) -> Rule {
    let trigger = rng.percent(80).then(|| Named { place: place(rng, house), called: None });
    let most_ways = if rng.percent(1) { 64 } else { size.ways };
    let ways = (0..rng.from(1, most_ways)).map(|_| way(rng, kind, house, trigger.is_some(), size));
    let ways = ways.collect();
    Rule { title: None, trigger, ways }
}

fn way(rng: &mut Rng, kind: Kind, house: &House, trigger: bool, size: Size) -> Way {
    let number = rng.pick(&[0, 1, 1, 1, 2, 2, 3, 4]);
    let names = (0..number).map(|_| Named { place: place(rng, house), called: None }).collect();
    let first = u32::from(!trigger);
    let most = size.asks.min(kind.most_asks() as u32);
    let mut asks = Vec::new();
    for _ in 0..rng.from(0, most) {
        asks.extend(match kind {
            Kind::Book => Some(atom(rng, first, number)),
            Kind::Sheet if first <= number => Some(constraint(rng, first, number)),
            Kind::Sheet => None,
        });
    }
    Way { names, asks }
}

fn constraint(rng: &mut Rng, first: u32, last: u32) -> Ask {
    let set = match rng.from(0, 3) {
        0 => rng.from(1, 8_191),
        1 => 8_191,
        2 => 1 << rng.from(0, 12),
        _ => 1 << rng.from(0, 12) | 1 << rng.from(0, 12),
    };
    let mut token = || rng.from(first, last) as usize;
    Ask::Relation { left: token(), right: token(), set }
}

fn term(rng: &mut Rng, first: u32, last: u32) -> Term {
    let token = (first <= last).then(|| rng.from(first, last) as usize);
    match (rng.from(0, 9), token) {
        (0..=3, Some(token)) => Term::Start(token),
        (4..=7, Some(token)) => Term::End(token),
        (8, _) => Term::PlanEnd,
        _ => Term::Time(match rng.from(0, 9) {
            0 => LAST,
            1 => rng.from(0, LAST),
            _ => rng.from(0, 30),
        }),
    }
}

fn atom(rng: &mut Rng, first: u32, last: u32) -> Ask {
    if first <= last && rng.percent(12) {
        let mut token = || rng.from(first, last) as usize;
        return Ask::SameJob { left: token(), right: token() };
    }
    let lower = rng.pick(&[0, 0, 0, 1, 1, 2, 7, 10, 20, LAST]);
    let upper = match rng.from(0, 5) {
        0 => lower,
        1 => LAST,
        2 => LAST.min(lower + rng.from(0, 20)),
        _ => N,
    };
    let (left, right) = (term(rng, first, last), term(rng, first, last));
    Ask::Bound { left, right, lower, upper }
}

/// A plan that walks from successor to successor; its lines end together where
/// their last tokens can be made longer.
pub fn plan(rng: &mut Rng, house: &House, size: Size) -> Plan {
    let jobs = rng.percent(50);
    let mut lines: Vec<Vec<Token>> =
        house.timelines.iter().map(|t| line(rng, t, size.tokens, jobs)).collect();
    let most = (MOST_WORDS - 35) / 3;
    while lines.iter().map(Vec::len).sum::<usize>() > most {
        lines.iter_mut().for_each(|l| l.truncate(l.len() / 2));
    }
    let end = |line: &Vec<Token>| line.iter().map(|t| t.duration).sum::<u32>();
    let last = lines.iter().map(end).max().unwrap_or(0);
    for (line, timeline) in lines.iter_mut().zip(&house.timelines) {
        let missing = last - end(line);
        if let Some(token) = line.last_mut() {
            let longer = token.duration + missing;
            if timeline.values[token.value as usize].lasts(longer) {
                token.duration = longer;
            }
        }
    }
    Plan { jobs, lines }
}

/// Some words changed, and some cut off.
pub fn damaged(rng: &mut Rng, words: &[u32]) -> Vec<u32> {
    const NEW: [u32; 14] = [0, 1, 2, 3, 4, 5, 14, 512, 513, 8_191, 8_192, LAST, LAST + 1, u32::MAX];
    let mut words = words.to_vec();
    for _ in 0..rng.from(0, 2) {
        let at = rng.from(0, words.len() as u32 - 1) as usize;
        words[at] = rng.pick(&NEW);
    }
    if rng.percent(5) {
        words.truncate(rng.from(0, words.len() as u32) as usize);
    }
    words
}

fn line(rng: &mut Rng, timeline: &Timeline, most: u32, jobs: bool) -> Vec<Token> {
    let mut tokens = Vec::new();
    let mut open = u32::MAX;
    let mut time = 0;
    for _ in 0..rng.from(0, most) {
        let can: Vec<u32> =
            (0..timeline.values.len() as u32).filter(|v| open >> v & 1 == 1).collect();
        if can.is_empty() {
            break;
        }
        let value = rng.pick(&can);
        let own = &timeline.values[value as usize];
        let most = own.greatest.min(LAST - time);
        if own.least > most {
            break;
        }
        let duration = rng.from(own.least, most.min(own.least + 6));
        let job = if jobs { rng.pick(&[0, 0, 1, 2, N]) } else { 0 };
        tokens.push(Token { value, duration, job });
        time += duration;
        open = own.then;
    }
    tokens
}

/// The starts and ends of a plan in time order, as the writer of lists has them.
pub fn events(plan: &Plan) -> Events {
    let mut moments: Vec<(u64, Action)> = Vec::new();
    for (timeline, line) in plan.lines.iter().enumerate() {
        let mut time = 0;
        for token in line {
            let (timeline, value, job) = (timeline as u32, token.value, token.job);
            moments.push((time, Action { timeline, value, starts: true, job }));
            time += u64::from(token.duration);
            moments.push((time, Action { timeline, value, starts: false, job }));
        }
    }
    moments.sort_by_key(|(time, a)| (*time, a.timeline, a.starts));
    let mut events: Vec<Event> = Vec::new();
    for (time, action) in moments {
        match events.last_mut() {
            Some(open) if open.time == time => open.actions.push(action),
            _ => events.push(Event { time, actions: vec![action] }),
        }
    }
    Events { jobs: plan.jobs, events }
}
