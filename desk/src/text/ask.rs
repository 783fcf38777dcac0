//! What an alternative asks of its tokens, as a line of text.

use super::cursor::{Cursor, Read};
use super::mistake::{hint, Mistake};
use crate::model::{Ask, Kind, Term};
use crate::relation;
use crate::words::{LAST, N};

/// The tokens that an alternative can speak of, by what they are called.
pub struct Known {
    pub trigger: bool,
    pub names: Vec<(String, usize)>,
}

/// What stands before a bound: a moment, or a token without one.
enum Subject {
    Moment(Term),
    Token(usize),
}

/// Which way round a bound is read.
enum Way {
    After,
    Before,
}

pub fn read(c: &mut Cursor, kind: Kind, known: &Known) -> Read<Ask> {
    let ask = match kind {
        Kind::Book => atom(c, known)?,
        Kind::Sheet => constraint(c, known)?,
    };
    c.finish()?;
    Ok(ask)
}

fn token(c: &mut Cursor, known: &Known) -> Read<usize> {
    let spot = c.spot();
    if c.eat("the trigger") || c.eat("trigger") {
        return match known.trigger {
            true => Ok(0),
            false => Err(Mistake::new(spot, "the rule is 'in every plan' and has no trigger")),
        };
    }
    const WHAT: &str = "'the trigger' or what a token is called";
    if c.sees_reserved() {
        return c.expected(WHAT);
    }
    let name = c.plain_name(WHAT)?;
    let found = known.names.iter().find(|(called, _)| *called == name);
    found.map(|(_, token)| *token).ok_or_else(|| {
        let others = known.names.iter().map(|(called, _)| called.as_str());
        Mistake::new(spot, format!("no token is called '{name}' here{}", hint(&name, others)))
    })
}

fn constraint(c: &mut Cursor, known: &Known) -> Read<Ask> {
    let left = token(c, known)?;
    let mut set = 0;
    c.eat("is");
    if c.eat("in any relation to") {
        set = relation::ALL;
    } else {
        loop {
            set |= 1 << relation_number(c)?;
            let comma = c.eat_sign(',');
            if !c.eat("or") && !comma {
                break;
            }
            c.eat("is");
        }
    }
    let right = token(c, known)?;
    Ok(Ask::Relation { left, right, set })
}

fn relation_number(c: &mut Cursor) -> Read<usize> {
    if let Some(number) = relation::NAMES.iter().position(|name| c.eat(name)) {
        return Ok(number);
    }
    let spot = c.spot();
    let missing = c.expected::<usize>("one of Allen's relations");
    match c.quoted_or_word("") {
        Ok(word) => {
            let near = hint(&word, relation::NAMES.into_iter());
            missing.map_err(|m| Mistake::new(spot, m.says + &near))
        }
        Err(_) => missing,
    }
}

fn atom(c: &mut Cursor, known: &Known) -> Read<Ask> {
    let subject = match subject(c, known)? {
        Subject::Moment(term) => term,
        Subject::Token(left) => {
            c.eat("is");
            if !c.eat("of the same job as") {
                return c.expected("'starts', 'ends' or 'is of the same job as'");
            }
            return Ok(Ask::SameJob { left, right: token(c, known)? });
        }
    };
    c.eat("is");
    let (lower, upper, way) = bounds(c)?;
    let object = match self::subject(c, known)? {
        Subject::Moment(term) => term,
        Subject::Token(_) => return c.expected("'starts' or 'ends'"),
    };
    let (left, right) = match way {
        Way::After => (object, subject),
        Way::Before => (subject, object),
    };
    Ok(Ask::Bound { left, right, lower, upper })
}

/// "D starts", "the end of D", "D's end", "the plan ends", "time 400", "400".
fn subject(c: &mut Cursor, known: &Known) -> Read<Subject> {
    if c.eat("the plan ends") || c.eat("the end of the plan") || c.eat("end of plan") {
        return Ok(Subject::Moment(Term::PlanEnd));
    }
    if c.eat("the start of") || c.eat("start of") {
        return Ok(Subject::Moment(Term::Start(token(c, known)?)));
    }
    if c.eat("the end of") || c.eat("end of") {
        return Ok(Subject::Moment(Term::End(token(c, known)?)));
    }
    if c.eat("time") || c.sees_number() {
        return Ok(Subject::Moment(Term::Time(c.number("a time", 0..=LAST)?)));
    }
    let token = token(c, known)?;
    let possessive = c.eat_sign('\'');
    let (start, end) = if possessive { ("start", "end") } else { ("starts", "ends") };
    if c.eat(start) {
        return Ok(Subject::Moment(Term::Start(token)));
    }
    if c.eat(end) {
        return Ok(Subject::Moment(Term::End(token)));
    }
    match possessive {
        true => c.expected("'start' or 'end'"),
        false => Ok(Subject::Token(token)),
    }
}

fn bounds(c: &mut Cursor) -> Read<(u32, u32, Way)> {
    if c.eat("at or after") {
        return Ok((0, N, Way::After));
    }
    if c.eat("at or before") {
        return Ok((0, N, Way::Before));
    }
    let amount = amounts(c)?;
    if amount.is_none() && (c.eat("when") || c.eat("at")) {
        return Ok((0, 0, Way::After));
    }
    let (lower, upper) = amount.unwrap_or((1, N));
    if c.eat("after") {
        return Ok((lower, upper, Way::After));
    }
    if c.eat("before") {
        return Ok((lower, upper, Way::Before));
    }
    match amount {
        Some(_) => c.expected("'after' or 'before'"),
        None => c.expected("'after', 'before', 'when', 'at', 'at least', 'at most' or 'exactly'"),
    }
}

/// "at least 10", "at most 20", "at least 10 and at most 20", "10 to 20", "exactly 10".
fn amounts(c: &mut Cursor) -> Read<Option<(u32, u32)>> {
    if c.eat("at least") {
        let lower = c.number("the least", 0..=LAST)?;
        return match c.eat("and at most") {
            true => Ok(Some((lower, c.number("the most", lower..=LAST)?))),
            false => Ok(Some((lower, N))),
        };
    }
    if c.eat("at most") {
        return Ok(Some((0, c.number("the most", 0..=LAST)?)));
    }
    if c.eat("exactly") {
        let amount = c.number("the amount", 0..=LAST)?;
        return Ok(Some((amount, amount)));
    }
    if !c.sees_number() {
        return Ok(None);
    }
    let lower = c.number("the least", 0..=LAST)?;
    c.expect("to")?;
    Ok(Some((lower, c.number("the most", lower..=LAST)?)))
}
