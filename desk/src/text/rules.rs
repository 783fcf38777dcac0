//! Rules over a house, read from text.

use super::ask::{self, Known};
use super::cursor::{Cursor, Read};
use super::lex::Statement;
use super::mistake::{Mistake, Spot};
use super::place::named;
use crate::encode;
use crate::model::{House, Kind, Named, Rule, Rules, Way};
use crate::words::{
    MOST_ASKS_IN_ALL, MOST_NAMES, MOST_NAMES_IN_ALL, MOST_RULES, MOST_WAYS, MOST_WAYS_IN_ALL,
    MOST_WORDS,
};

/// Most letters of a title.
const MOST_TITLE: usize = 200;

/// An alternative whose names are read and whose asks aren't.
#[derive(Default)]
struct Draft<'a> {
    spot: Spot,
    names: Vec<Named>,
    asks: Vec<&'a Statement>,
}

/// Reads "rule .." blocks; the first statement begins one.
pub fn read(
    kind: Kind,
    house: House,
    statements: &[Statement],
    mistakes: &mut Vec<Mistake>,
) -> Rules {
    let is_rule = |s: &Statement| Cursor::new(s).sees("rule");
    let starts: Vec<usize> = (0..statements.len()).filter(|s| is_rule(&statements[*s])).collect();
    let ends = starts.iter().skip(1).copied().chain([statements.len()]);
    let mut rules = Vec::new();
    for (number, (start, end)) in starts.iter().zip(ends).enumerate() {
        let block = &statements[*start..end];
        if number == MOST_RULES {
            let says = format!("a {} has at most {MOST_RULES} rules", kind.word());
            mistakes.push(Mistake::new(Cursor::new(&block[0]).spot(), says));
        }
        rules.extend(rule(kind, &house, block, mistakes));
    }
    let rules = Rules { kind, house, rules };
    if mistakes.is_empty() {
        mistakes.extend(too_much(&rules).map(|says| {
            let spot = statements.first().map_or(Spot::default(), |s| Cursor::new(s).spot());
            Mistake::new(spot, says)
        }));
    }
    rules
}

/// What there is too much of, in all rules together.
fn too_much(rules: &Rules) -> Option<String> {
    let ways: Vec<&Way> = rules.rules.iter().flat_map(|r| &r.ways).collect();
    let names = ways.iter().map(|w| w.names.len()).sum::<usize>();
    let asks = ways.iter().map(|w| w.asks.len()).sum::<usize>();
    let words = encode::rules(rules).len();
    let limits = [
        (ways.len(), MOST_WAYS_IN_ALL, "alternatives"),
        (names, MOST_NAMES_IN_ALL, "names of tokens"),
        (asks, MOST_ASKS_IN_ALL, "bounds or relations"),
        (words, MOST_WORDS, "words"),
    ];
    let over = limits.into_iter().find(|(number, most, _)| number > most);
    let kind = rules.kind.word();
    over.map(|(number, most, what)| {
        format!("a {kind} has at most {most} {what}, these rules {number}")
    })
}

fn rule(
    kind: Kind,
    house: &House,
    block: &[Statement],
    mistakes: &mut Vec<Mistake>,
) -> Option<Rule> {
    let (heading, body) = block.split_first()?;
    let mut note = |result: Read<Option<String>>| {
        result.unwrap_or_else(|m| {
            mistakes.push(m);
            None
        })
    };
    let title = note(title(heading));
    let Some((first, rest)) = body.split_first() else {
        let says = "a rule begins with 'for each VALUE on TIMELINE' or 'in every plan'";
        mistakes.push(Mistake::new(heading.end, says));
        return None;
    };
    let trigger = match trigger(first, house, mistakes) {
        Ok(trigger) => trigger,
        Err(m) => {
            mistakes.push(m);
            return None;
        }
    };
    let drafts = drafts(rest, first, house, mistakes);
    if drafts.len() > MOST_WAYS {
        let says =
            format!("a rule has at most {MOST_WAYS} alternatives, this has {}", drafts.len());
        mistakes.push(Mistake::new(Cursor::new(heading).spot(), says));
    }
    let finish = |draft| way(kind, trigger.as_ref(), draft, mistakes);
    let ways = drafts.into_iter().map(finish).collect();
    Some(Rule { title, trigger, ways })
}

fn title(heading: &Statement) -> Read<Option<String>> {
    let mut c = Cursor::new(heading);
    c.expect("rule")?;
    let spot = c.spot();
    let title = c.quoted();
    if !c.done() {
        return c.expected("the rule's title in quotes");
    }
    match title {
        Some(t) if t.chars().count() > MOST_TITLE || t.chars().any(char::is_control) => {
            Err(Mistake::new(spot, format!("a title has at most {MOST_TITLE} letters")))
        }
        title => Ok(title.filter(|t| !t.is_empty())),
    }
}

fn trigger(line: &Statement, house: &House, mistakes: &mut Vec<Mistake>) -> Read<Option<Named>> {
    let mut c = Cursor::new(line);
    if c.eat("in every plan") {
        c.finish()?;
        return Ok(None);
    }
    if !c.eat("for each") {
        return c.expected("'for each VALUE on TIMELINE' or 'in every plan'");
    }
    named(&mut c, house, mistakes).map(Some)
}

/// The alternatives: one, or "either .. or ..".
fn drafts<'a>(
    body: &'a [Statement],
    trigger: &Statement,
    house: &House,
    mistakes: &mut Vec<Mistake>,
) -> Vec<Draft<'a>> {
    let mut split = false;
    let mut all = vec![Draft { spot: Cursor::new(trigger).spot(), ..Draft::default() }];
    for (number, statement) in body.iter().enumerate() {
        if let Err(m) = one_line(number, statement, house, &mut split, &mut all, mistakes) {
            mistakes.push(m);
        }
    }
    all
}

fn one_line<'a>(
    number: usize,
    statement: &'a Statement,
    house: &House,
    split: &mut bool,
    all: &mut Vec<Draft<'a>>,
    mistakes: &mut Vec<Mistake>,
) -> Read<()> {
    let mut c = Cursor::new(statement);
    let spot = c.spot();
    if c.sees("either") && number > 0 {
        let says = "'either' stands first in a rule, right after 'for each' or 'in every plan'";
        return Err(Mistake::new(spot, says));
    }
    if c.eat("either") {
        *split = true;
        return c.finish();
    }
    if c.sees("or") && !*split {
        return Err(Mistake::new(spot, "'or' needs an 'either' before the first alternative"));
    }
    if c.eat("or") {
        all.push(Draft { spot, ..Draft::default() });
        return c.finish();
    }
    let Some(open) = all.last_mut() else { return Ok(()) };
    if c.eat("some") {
        open.names.push(named(&mut c, house, mistakes)?);
    } else {
        open.asks.push(statement);
    }
    Ok(())
}

/// An alternative with its asks, now that all of its names are known.
fn way(kind: Kind, trigger: Option<&Named>, draft: Draft, mistakes: &mut Vec<Mistake>) -> Way {
    let mut known = Known { trigger: trigger.is_some(), names: Vec::new() };
    for (number, token) in trigger.iter().copied().chain(&draft.names).enumerate() {
        let Some(called) = &token.called else { continue };
        let number = number + usize::from(trigger.is_none());
        if known.names.iter().any(|(other, _)| other == called) {
            mistakes.push(Mistake::new(draft.spot, format!("two tokens are called '{called}'")));
        }
        known.names.push((called.clone(), number));
    }
    for (number, most, what) in [
        (draft.names.len(), MOST_NAMES, "tokens ('some ..')"),
        (
            draft.asks.len(),
            kind.most_asks(),
            if kind == Kind::Book { "bounds" } else { "relations" },
        ),
    ] {
        if number > most {
            let says = format!("an alternative has at most {most} {what}, this has {number}");
            mistakes.push(Mistake::new(draft.spot, says));
        }
    }
    let mut asks = Vec::new();
    for statement in draft.asks {
        match ask::read(&mut Cursor::new(statement), kind, &known) {
            Ok(ask) => asks.push(ask),
            Err(m) => mistakes.push(m),
        }
    }
    Way { names: draft.names, asks }
}
