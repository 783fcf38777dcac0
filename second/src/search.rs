//! Whether the rules are met, and what an atom says.

use crate::decode::{Alternative, Book, Owner, Test};
use crate::layout::{Answer, Kind, LAST, N};
use crate::placed::{Placed, Span};
use crate::plan::Tokens;

/// Where a term's time or job stands among the placed ones, the name it needs,
/// and what to add. A time point stands at the 0 and adds itself. The end of
/// the plan needs no name.
struct Term {
    place: usize,
    name: usize,
    add: i64,
}

impl Term {
    /// The kinds that there are.
    const KINDS: std::ops::RangeInclusive<u32> = 0..=4;
    /// Job of, which stands on both sides or on neither.
    const JOB: u32 = 4;

    fn read(kind: u32, argument: u32, owner: &Owner) -> Option<Term> {
        if kind == 2 {
            let add = i64::from(argument);
            return (argument <= LAST).then_some(Term { place: Placed::ZERO, name: 0, add });
        }
        if kind == 3 {
            return (argument == 0).then_some(Term { place: Placed::PLAN_END, name: 0, add: 0 });
        }
        let name = owner.token(argument)?;
        let place = match kind {
            0 => Placed::start(name),
            1 => Placed::end(name),
            Term::JOB => Placed::job(name),
            _ => return None,
        };
        Some(Term { place, name, add: 0 })
    }
}

/// Right minus left is at least lower and at most upper, as whole numbers. Of
/// two jobs both bounds are 0, so that holds exactly if they are equal.
pub struct Atom {
    left: usize,
    right: usize,
    last_name: usize,
    lower: i64,
    upper: i64,
}

impl Test for Atom {
    const KIND: Kind = Kind::Book;

    fn read(r: &[u32], owner: &Owner) -> Result<Atom, u32> {
        // A term that can't be read has a wrong argument, if there is its kind.
        let term = |at: usize| {
            let argument = u32::from(Term::KINDS.contains(&r[at]));
            Term::read(r[at], r[at + 1], owner).ok_or(at as u32 + argument)
        };
        let left = term(0)?;
        let jobs = r[0] == Term::JOB;
        if jobs != (r[2] == Term::JOB) {
            return Err(2);
        }
        let right = term(2)?;
        let (lower, upper) = (r[4], r[5]);
        if lower > if jobs { 0 } else { LAST } {
            return Err(4);
        }
        let upper_good =
            if jobs { upper == 0 } else { upper == N || (lower..=LAST).contains(&upper) };
        if !upper_good {
            return Err(5);
        }
        // What the terms add moves to the bounds, once for all.
        let moved = left.add - right.add;
        Ok(Atom {
            left: left.place,
            right: right.place,
            last_name: left.name.max(right.name),
            lower: i64::from(lower) + moved,
            upper: if upper == N { i64::MAX } else { i64::from(upper) + moved },
        })
    }

    fn last_name(&self) -> usize {
        self.last_name
    }

    fn holds(&self, placed: &Placed) -> bool {
        // Signed: the right may come first.
        let difference = placed.at(self.right) - placed.at(self.left);
        self.lower <= difference && difference <= self.upper
    }
}

/// Faults 12 and 0.
pub fn judge_rules<T: Test>(book: &Book<T>, tokens: &Tokens) -> Answer {
    judge_some(book, tokens, |_| true)
}

/// The same for the rules that are asked for, with the numbers that they have
/// in the book.
pub fn judge_some<T: Test>(
    book: &Book<T>,
    tokens: &Tokens,
    asked: impl Fn(usize) -> bool,
) -> Answer {
    // A rule without trigger is asked once, and fault 12 then shows token 0.
    let once = [Span::default()];
    let mut examined = 0;
    for (number, rule) in book.rules.iter().enumerate().filter(|(number, _)| asked(*number)) {
        let triggers = rule.trigger.map_or(&once[..], |value| tokens.of(value));
        let alternatives = &book.alternatives[rule.alternatives.clone()];
        for trigger in triggers {
            if !alternatives.iter().any(|a| can_be_met(book, tokens, a, *trigger)) {
                return [12, number as u32, trigger.token, 0];
            }
            examined += 1;
        }
    }
    [0, examined, 0, 0]
}

/// Whether some choice of one token for each name makes all tests hold. Goes
/// through the product of the lists like a counter, and leaves out what a test
/// on the names placed so far rules out.
fn can_be_met<T: Test>(
    book: &Book<T>,
    tokens: &Tokens,
    alternative: &Alternative,
    trigger: Span,
) -> bool {
    let names = &book.names[alternative.names.clone()];
    let ready = &alternative.ready;
    let mut tests: [&[T]; 5] = [&[]; 5];
    for (k, own) in tests.iter_mut().enumerate() {
        *own = &book.tests[ready[k]..ready[k + 1]];
    }
    let mut placed = Placed::new(trigger, tokens.end);
    if !tests[0].iter().all(|t| t.holds(&placed)) {
        return false;
    }

    let mut lists: [&[Span]; 5] = [&[]; 5];
    for (list, &name) in lists[1..].iter_mut().zip(names) {
        *list = tokens.of(name);
        if list.is_empty() {
            return false;
        }
    }
    let last = names.len();
    if last == 0 {
        return true;
    }

    let mut next = [0; 5];
    let mut name = 1;
    loop {
        // The last name in one go; then a name before it moves on.
        if name == last {
            let found = lists[name].iter().any(|span| {
                placed.put(name, *span);
                tests[name].iter().all(|t| t.holds(&placed))
            });
            if found {
                return true;
            }
            name -= 1;
        }
        if name == 0 {
            return false;
        }
        if let Some(span) = lists[name].get(next[name]) {
            next[name] += 1;
            placed.put(name, *span);
            if tests[name].iter().all(|t| t.holds(&placed)) {
                name += 1;
                next[name] = 0;
            }
        } else {
            name -= 1;
        }
    }
}
