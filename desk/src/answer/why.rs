//! Why the alternatives of a rule fail for a trigger token. An explanation,
//! not a verdict: it is asked only after the judge has said 12.

use crate::model::{Ask, Rule, Term, Way};
use crate::relation::{self, Order};
use crate::scene::{Scene, Stretch};

/// The tokens chosen so far: the trigger, then the names.
pub type Choice = [Option<Stretch>; 5];

/// Why one alternative fails. Asks are numbered within it, names from 1.
#[derive(Clone, Debug, PartialEq, Eq)]
pub enum Why {
    /// The ask speaks of no name, and doesn't hold.
    Fails { ask: usize },
    /// The plan has no token of the name's value.
    Missing { name: usize },
    /// No token of the name's value keeps the ask.
    NoToken { ask: usize, name: usize, nearest: Stretch },
    /// No token of the name's value keeps all asks that speak of it alone.
    NotTogether { name: usize, nearest: Stretch, fails: usize },
    /// No two tokens of the names' values keep the ask.
    NoPair { ask: usize, names: [usize; 2], nearest: [Stretch; 2] },
    /// With these tokens for the first names, no token of the next name's value
    /// keeps all asks that then have their tokens.
    NoChoice { placed: Vec<Stretch>, name: usize, nearest: Stretch, fails: usize },
    /// The search for such tokens was given up; each ask alone can be kept.
    TooMany,
}

impl Why {
    /// The stretches that it names.
    pub fn nearest(&self) -> Vec<Stretch> {
        match self {
            Why::Fails { .. } | Why::Missing { .. } | Why::TooMany => Vec::new(),
            Why::NoToken { nearest, .. } | Why::NotTogether { nearest, .. } => vec![*nearest],
            Why::NoPair { nearest, .. } => nearest.to_vec(),
            Why::NoChoice { placed, nearest, .. } => {
                placed.iter().copied().chain([*nearest]).collect()
            }
        }
    }
}

/// By how much an ask is missed; 0 if it holds.
pub fn distance(ask: &Ask, chosen: &Choice, end: u64) -> u64 {
    let token = |number: usize| chosen.get(number).copied().flatten();
    match *ask {
        Ask::Bound { left, right, lower, upper } => {
            let time = |term: Term| match term {
                Term::Start(number) => token(number).map_or(0, |s| s.start),
                Term::End(number) => token(number).map_or(0, |s| s.end),
                Term::Time(time) => time.into(),
                Term::PlanEnd => end,
            };
            let difference = time(right) as i64 - time(left) as i64;
            let under = i64::from(lower) - difference;
            let over = if upper == u32::MAX { 0 } else { difference - i64::from(upper) };
            under.max(over).max(0) as u64
        }
        Ask::SameJob { left, right } => match (token(left), token(right)) {
            (Some(l), Some(r)) if l.job != r.job => 1 + l.start.abs_diff(r.start),
            _ => 0,
        },
        Ask::Relation { left, right, set } => match (token(left), token(right)) {
            (Some(l), Some(r)) => from_relations(set, [l.start, l.end, r.start, r.end]),
            _ => 0,
        },
    }
}

fn from_relations(set: u32, times: [u64; 4]) -> u64 {
    let missed = |order: &Order| match *order {
        Order::Less(p, q) => (times[p] + 1).saturating_sub(times[q]),
        Order::Same(p, q) => times[p].abs_diff(times[q]),
    };
    let from = |r: usize| relation::ORDERS[r].iter().map(missed).sum();
    relation::members(set).map(from).min().unwrap_or(0)
}

/// Why each alternative of the rule fails for this trigger.
pub fn why(rule: &Rule, trigger: Option<Stretch>, scene: &Scene) -> Vec<Why> {
    rule.ways.iter().map(|way| Search::new(way, trigger, scene).why()).collect()
}

struct Search<'a> {
    way: &'a Way,
    end: u64,
    /// The trigger alone.
    start: Choice,
    /// The tokens of each name's value; none for the trigger.
    tokens: Vec<Vec<Stretch>>,
    /// The names that each ask speaks of.
    speaks: Vec<Vec<usize>>,
}

/// Choices that are looked at before the search for an example is given up.
const MOST_TRIES: usize = 200_000;

impl<'a> Search<'a> {
    fn new(way: &'a Way, trigger: Option<Stretch>, scene: &Scene) -> Search<'a> {
        let mut tokens = vec![Vec::new()];
        tokens.extend(way.names.iter().map(|name| scene.of(name.place)));
        let names = |ask: &Ask| ask.tokens().into_iter().filter(|t| *t > 0).collect();
        let speaks = way.asks.iter().map(names).collect();
        Search { way, end: scene.end, start: [trigger, None, None, None, None], tokens, speaks }
    }

    fn why(&self) -> Why {
        let names = 1..self.tokens.len();
        self.fails()
            .or_else(|| {
                let missing = |name: &usize| self.tokens[*name].is_empty();
                names.clone().find(missing).map(|name| Why::Missing { name })
            })
            .or_else(|| names.clone().find_map(|name| self.no_token(name)))
            .or_else(|| names.clone().find_map(|name| self.not_together(name)))
            .or_else(|| (0..self.way.asks.len()).find_map(|ask| self.no_pair(ask)))
            .unwrap_or_else(|| self.no_choice())
    }

    fn distance(&self, ask: usize, chosen: &Choice) -> u64 {
        distance(&self.way.asks[ask], chosen, self.end)
    }

    /// The asks that speak of exactly these names.
    fn about(&self, names: &[usize]) -> Vec<usize> {
        (0..self.speaks.len()).filter(|ask| self.speaks[*ask] == names).collect()
    }

    fn sum(&self, asks: &[usize], chosen: &Choice) -> u64 {
        asks.iter().map(|ask| self.distance(*ask, chosen)).sum()
    }

    fn with(chosen: &Choice, name: usize, token: Stretch) -> Choice {
        let mut more = *chosen;
        more[name] = Some(token);
        more
    }

    /// The token for `name` that misses the asks by least, and by how much; the
    /// first that keeps them all, if there is one.
    fn nearest(&self, name: usize, asks: &[usize], chosen: &Choice) -> Option<(u64, Stretch)> {
        let mut best: Option<(u64, Stretch)> = None;
        for token in &self.tokens[name] {
            let missed = self.sum(asks, &Search::with(chosen, name, *token));
            if best.is_none_or(|(least, _)| missed < least) {
                best = Some((missed, *token));
            }
            if missed == 0 {
                break;
            }
        }
        best
    }

    /// The first of the asks that doesn't hold.
    fn first_missed(&self, asks: &[usize], chosen: &Choice) -> usize {
        let missed = asks.iter().find(|ask| self.distance(**ask, chosen) > 0);
        missed.or(asks.first()).copied().unwrap_or(0)
    }

    fn fails(&self) -> Option<Why> {
        let own = self.about(&[]);
        let ask = own.into_iter().find(|ask| self.distance(*ask, &self.start) > 0)?;
        Some(Why::Fails { ask })
    }

    fn no_token(&self, name: usize) -> Option<Why> {
        self.about(&[name]).into_iter().find_map(|ask| {
            let (missed, nearest) = self.nearest(name, &[ask], &self.start)?;
            (missed > 0).then_some(Why::NoToken { ask, name, nearest })
        })
    }

    fn not_together(&self, name: usize) -> Option<Why> {
        let asks = self.about(&[name]);
        let (missed, nearest) = self.nearest(name, &asks, &self.start)?;
        let fails = self.first_missed(&asks, &Search::with(&self.start, name, nearest));
        (missed > 0).then_some(Why::NotTogether { name, nearest, fails })
    }

    fn no_pair(&self, ask: usize) -> Option<Why> {
        let &[one, two] = self.speaks[ask].as_slice() else { return None };
        let mut best: Option<(u64, [Stretch; 2])> = None;
        for first in &self.tokens[one] {
            let chosen = Search::with(&self.start, one, *first);
            let (missed, second) = self.nearest(two, &[ask], &chosen)?;
            if missed == 0 {
                return None;
            }
            if best.is_none_or(|(least, _)| missed < least) {
                best = Some((missed, [*first, second]));
            }
        }
        best.map(|(_, nearest)| Why::NoPair { ask, names: [one, two], nearest })
    }

    /// The asks that have their tokens once `name` is placed, and hadn't before.
    fn ready(&self, name: usize) -> Vec<usize> {
        let last = |ask: &usize| self.speaks[*ask].iter().max() == Some(&name);
        (0..self.speaks.len()).filter(last).collect()
    }

    /// The first choice for as many names as get one, and the name that gets none.
    fn no_choice(&self) -> Why {
        let ready: Vec<Vec<usize>> = (0..self.tokens.len()).map(|name| self.ready(name)).collect();
        let mut deepest = (0, self.start);
        let mut tries = 0;
        self.place(1, &self.start, &ready, &mut deepest, &mut tries);
        let (name, chosen) = deepest;
        let example = self.tokens.get(name).and_then(|_| {
            let (missed, nearest) = self.nearest(name, &ready[name], &chosen)?;
            let fails = self.first_missed(&ready[name], &Search::with(&chosen, name, nearest));
            let placed = chosen[1..name].iter().copied().flatten().collect();
            (missed > 0).then_some(Why::NoChoice { placed, name, nearest, fails })
        });
        example.unwrap_or(Why::TooMany)
    }

    /// Tries all tokens for this name and those behind it. `deepest` becomes the
    /// furthest name for which no token fits, with the choice before it.
    fn place(
        &self,
        name: usize,
        chosen: &Choice,
        ready: &[Vec<usize>],
        deepest: &mut (usize, Choice),
        tries: &mut usize,
    ) {
        let Some(tokens) = self.tokens.get(name) else { return };
        let mut fits = false;
        for token in tokens {
            *tries += 1;
            if *tries > MOST_TRIES {
                return;
            }
            let more = Search::with(chosen, name, *token);
            if ready[name].iter().all(|ask| self.distance(*ask, &more) == 0) {
                fits = true;
                self.place(name + 1, &more, ready, deepest, tries);
            }
        }
        if !fits && name > deepest.0 {
            *deepest = (name, *chosen);
        }
    }
}
