//! An answer as a sentence, with the tokens that it speaks of.

use super::reason::{times, Reason};
use super::record::{self, Raw};
use super::why::why;
use super::Answer;
use crate::model::{House, Kind, Plan, Rule, Rules};
use crate::scene::{Scene, Stretch};
use crate::text::mistake::list;
use crate::text::write::{lasts, successors};
use crate::words::{from_bytes, LAST};

/// What was judged, as bytes and, where it can be read, as what it says.
pub struct Case<'a> {
    pub kind: Kind,
    pub book: &'a [u8],
    pub rules: Option<&'a Rules>,
    pub plan_bytes: &'a [u8],
    pub plan: Option<&'a Plan>,
}

/// Sentences, and what a picture shows of them.
#[derive(Default)]
pub struct Told {
    pub lines: Vec<String>,
    /// The faulty token, or the one whose rule isn't met.
    pub fault: Option<Stretch>,
    /// Tokens that the explanations name, with the alternative's number from 1.
    pub nearest: Vec<(usize, Stretch)>,
    /// How many alternatives were looked at.
    pub alternatives: usize,
    /// All tokens of values that the alternatives name.
    pub looked_at: Vec<Stretch>,
}

/// What the judge's answer means for these files.
pub fn tell(answer: Answer, case: &Case) -> Told {
    let [number, a, b, _] = answer;
    match (number, case.rules, case.plan) {
        (8..=11 | 18, Some(rules), Some(plan)) => token(number, a, b, &rules.house, plan),
        (12, Some(rules), Some(plan)) => unmet(a, b, rules, plan),
        (1..=7, _, _) => refused(words(answer, case)),
        (0, _, _) => Told { lines: vec![accepted(a)], ..Told::default() },
        _ => Told { lines: vec![say(answer, &House::default())], ..Told::default() },
    }
}

fn accepted(examined: u32) -> String {
    match examined {
        0 => "Accepted: no rule had a trigger token to examine.".to_string(),
        1 => "Accepted: 1 trigger token was examined.".to_string(),
        _ => format!("Accepted: {examined} trigger tokens were examined."),
    }
}

fn refused(says: String) -> Told {
    Told { lines: vec![format!("Refused: {says}.")], ..Told::default() }
}

/// Refusals 1 to 7 speak of words.
fn words(answer: Answer, case: &Case) -> String {
    let [number, a, b, c] = answer.map(|n| n as usize);
    let book = from_bytes(case.book).unwrap_or_default();
    let plan = from_bytes(case.plan_bytes).unwrap_or_default();
    let raw = Raw { kind: case.kind, words: &book };
    let variables = case.rules.map_or(0, |r| r.house.timelines.len());
    match number {
        1 => raw.length(case.book.len()),
        2 => raw.header(a),
        3 => raw.end(),
        4 => raw.record(a, b, c),
        5 => record::plan_length(case.plan_bytes.len(), variables),
        6 => record::plan_header(&plan, variables, a),
        _ => record::plan_end(&plan, variables),
    }
}

/// "job on rip, 40 to 50 (token 3)", with its job if it has one.
fn shown(house: &House, s: &Stretch) -> String {
    let (value, timeline) = (house.value(s.timeline, s.value as usize), house.timeline(s.timeline));
    let job = if s.job == 0 { String::new() } else { format!(" of job {}", s.job) };
    format!("{value} on {timeline}{job}, {} (token {})", times(s), s.token)
}

/// Refusals 8 to 11 and 18.
fn token(number: u32, timeline: u32, token: u32, house: &House, plan: &Plan) -> Told {
    let scene = Scene::new(plan);
    let line = timeline as usize;
    let last = scene.lines.get(line).and_then(|l| l.last()).copied();
    let fault = if number == 18 { last } else { scene.get(timeline, token) };
    let says = match (number, fault) {
        (18, _) => format!(
            "{} ends at {} and {} at {}; all timelines end together",
            house.timeline(line),
            scene.line_end(line),
            house.timeline(0),
            scene.line_end(0)
        ),
        (8, Some(fault)) => unknown(&fault, house),
        (_, Some(fault)) => {
            format!("{}{}", shown(house, &fault), wrong(number, &fault, &scene, house))
        }
        (_, None) => format!("token {token} of {}", house.timeline(line)),
    };
    Told { fault, ..refused(says) }
}

/// Refusal 8.
fn unknown(fault: &Stretch, house: &House) -> String {
    let timeline = house.timeline(fault.timeline);
    let known = house.timelines.get(fault.timeline).map_or(0, |t| t.values.len());
    let names: Vec<String> = (0..known).map(|v| house.value(fault.timeline, v)).collect();
    let (token, value) = (fault.token, fault.value);
    let names = list(&names, "and");
    format!(
        "token {token} of {timeline}, {}, has value {value}; {timeline} has {names}",
        times(fault)
    )
}

/// What is wrong with the token of refusals 9 to 11.
fn wrong(number: u32, fault: &Stretch, scene: &Scene, house: &House) -> String {
    let values = house.timelines.get(fault.timeline).map_or(&[][..], |t| &t.values);
    let known = values.get(fault.value as usize);
    let before = fault.token.checked_sub(1).and_then(|t| scene.lines[fault.timeline].get(t));
    match number {
        9 => {
            let allowed = known.map_or(String::new(), lasts);
            format!(", lasts {}; it {allowed}", fault.end - fault.start)
        }
        10 => {
            let of = |value: u32| house.value(fault.timeline, value as usize);
            let (first, then) = before.map_or((String::new(), String::new()), |b| {
                let value = values.get(b.value as usize);
                let then = value.map(|v| successors(house, fault.timeline, v));
                (of(b.value), then.unwrap_or_default())
            });
            format!(", can't follow {first}; after {first} comes {then}")
        }
        _ => format!(", ends after the last tick, {LAST}"),
    }
}

/// Refusal 12.
fn unmet(number: u32, token: u32, rules: &Rules, plan: &Plan) -> Told {
    let scene = Scene::new(plan);
    let Some(rule) = rules.rules.get(number as usize) else {
        return refused(format!("rule {number} isn't met"));
    };
    let trigger = rule.trigger.as_ref().and_then(|t| scene.get(t.place.timeline as u32, token));
    let title = rule.title.as_ref().map_or(String::new(), |t| format!(", \"{t}\","));
    let of =
        trigger.map_or("by this plan".to_string(), |t| format!("for {}", shown(&rules.house, &t)));
    let mut told = refused(format!("rule {number}{title} is not met {of}"));
    told.fault = trigger;
    told.alternatives = rule.ways.len();
    explain(rule, trigger, rules, &scene, &mut told);
    told
}

fn explain(rule: &Rule, trigger: Option<Stretch>, rules: &Rules, scene: &Scene, told: &mut Told) {
    for (number, (way, why)) in rule.ways.iter().zip(why(rule, trigger, scene)).enumerate() {
        let reason = Reason { house: &rules.house, rule, way, trigger, end: scene.end };
        let alternative = match rule.ways.len() {
            1 => "Why".to_string(),
            _ => format!("Alternative {}", number + 1),
        };
        told.lines.push(format!("{alternative}: {}.", reason.sentence(&why)));
        told.nearest.extend(why.nearest().into_iter().map(|s| (number + 1, s)));
        told.looked_at.extend(way.names.iter().flat_map(|name| scene.of(name.place)));
    }
}

/// What any line of four numbers means, without the files.
pub fn say(answer: Answer, house: &House) -> String {
    let [number, a, b, c] = answer;
    let line = || house.timeline(a as usize);
    let at = || format!("token {b} of {}", line());
    match number {
        0 if b > 0 => format!("Done: {a} words were written, of {b} alternatives or rules."),
        0 => format!("Accepted or done: {a} trigger tokens were examined, or {a} words written."),
        1 => "The book's or sheet's length isn't 14 to 16384 words.".to_string(),
        2 => format!("Word {a} of the book's or sheet's header is wrong."),
        3 => "Table 5 of the book or sheet doesn't end at its length.".to_string(),
        4 => format!("Word {c} of record {b} in table {a} of the book or sheet is wrong."),
        5 => "The plan is too short for its timelines, or has over 16384 words.".to_string(),
        6 => format!("Word {a} of the plan, before its tokens, is wrong."),
        7 => "The plan's tokens don't end at its length.".to_string(),
        8 => format!("The value of {} is unknown.", at()),
        9 => format!("The duration of {} is outside what its value may last.", at()),
        10 => format!("The value of {} can't follow the one before.", at()),
        11 => format!("The end of {} is after the last tick, {LAST}.", at()),
        12 => format!("Rule {a} is not met for token {b} of its trigger's timeline."),
        13 => format!("Rule {a} of the sheet would have over 64 alternatives in a book."),
        14 if a == 6 => "The book of the sheet would have over 16384 words.".to_string(),
        14 => format!("The book of the sheet would have too many records in table {a}."),
        15 => format!("The room lent is too short: the book needs {a} words."),
        16 => "16 isn't used any more.".to_string(),
        17 => "There is no such timeline.".to_string(),
        18 => format!("{} doesn't end where {} ends.", line(), house.timeline(0)),
        19 => "The list of desks has the wrong length or a word over 1, or the desk is over 1."
            .to_string(),
        20 => "No plan of this book has such a list of events.".to_string(),
        21 => format!("The room lent is too short: {a} words are needed."),
        22 => format!("The index lent is too short: {a} entries are needed."),
        24 => "The list of rules to take out isn't strictly increasing, or names one that the \
               book hasn't got."
            .to_string(),
        25 => "The table lent for the relations is too short.".to_string(),
        26 => {
            "The book speaks of more than order: bounds, time points or the plan's end.".to_string()
        }
        27 => "The book or sheet has no alternative of that number.".to_string(),
        _ => "No answer has this number.".to_string(),
    }
}
