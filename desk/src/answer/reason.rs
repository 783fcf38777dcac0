//! The explanation of one alternative as a sentence.

use super::why::{Choice, Why};
use crate::model::{Ask, House, Rule, Term, Way};
use crate::relation;
use crate::scene::Stretch;
use crate::text::mistake::list;
use crate::text::name::token_names;
use crate::text::write::{amount, ask_in, place, relations};

/// What a sentence about an alternative speaks of.
pub struct Reason<'a> {
    pub house: &'a House,
    pub rule: &'a Rule,
    pub way: &'a Way,
    pub trigger: Option<Stretch>,
    pub end: u64,
}

/// "10 to 40".
pub fn times(stretch: &Stretch) -> String {
    format!("{} to {}", stretch.start, stretch.end)
}

impl Reason<'_> {
    pub fn sentence(&self, why: &Why) -> String {
        match why {
            Why::Fails { ask } => {
                let given = self.way.asks.get(*ask).map_or(String::new(), |a| self.given(&[a]));
                format!("{} doesn't hold{given}", self.quoted(*ask))
            }
            Why::Missing { name } => format!("the plan has no {}", self.place(*name)),
            Why::NoToken { ask, name, nearest } => self.no_token(*ask, *name, nearest),
            Why::NotTogether { name, nearest, fails } => self.not_together(*name, nearest, *fails),
            Why::NoPair { ask, names, nearest } => {
                let [one, two] = names.map(|name| self.place(name));
                let [first, second] = nearest.each_ref().map(times);
                format!(
                    "no {one} and {two} keep {}: the nearest are {first} and {second}",
                    self.quoted(*ask)
                )
            }
            Why::NoChoice { placed, name, nearest, fails } => {
                self.no_choice(placed, *name, nearest, *fails)
            }
            Why::TooMany => "no choice of tokens keeps all that it asks together".to_string(),
        }
    }

    fn not_together(&self, name: usize, nearest: &Stretch, fails: usize) -> String {
        let asks: Vec<&Ask> = self.way.asks.iter().filter(|a| self.only(a, name)).collect();
        let all: Vec<String> = asks.iter().map(|a| self.quote(a)).collect();
        format!(
            "no {} keeps {} together{}: the nearest, {}, fails {}",
            self.place(name),
            list(&all, "and"),
            self.given(&asks),
            times(nearest),
            self.quoted(fails)
        )
    }

    fn no_choice(
        &self,
        placed: &[Stretch],
        name: usize,
        nearest: &Stretch,
        fails: usize,
    ) -> String {
        let names = token_names(self.rule, self.way);
        let chosen: Vec<String> =
            placed.iter().zip(&names[1..]).map(|(s, n)| format!("{n} {}", times(s))).collect();
        format!(
            "no choice of tokens keeps all that it asks together: with {}, no {} fits as {}; \
             the nearest, {}, fails {}",
            list(&chosen, "and"),
            self.place(name),
            names[name],
            times(nearest),
            self.quoted(fails)
        )
    }

    fn place(&self, name: usize) -> String {
        self.way.names.get(name - 1).map_or(String::new(), |n| place(self.house, n))
    }

    fn quoted(&self, ask: usize) -> String {
        self.way.asks.get(ask).map_or(String::new(), |ask| self.quote(ask))
    }

    fn quote(&self, ask: &Ask) -> String {
        format!("\"{}\"", ask_in(self.rule, self.way, ask))
    }

    /// Whether the ask speaks of this name and of no other.
    fn only(&self, ask: &Ask, name: usize) -> bool {
        ask.tokens().into_iter().filter(|t| *t > 0).eq([name])
    }

    /// The times of trigger and plan that the asks rest on.
    fn given(&self, asks: &[&Ask]) -> String {
        let at_end = |term: &Term| *term == Term::PlanEnd;
        let ends = asks.iter().any(|ask| match ask {
            Ask::Bound { left, right, .. } => at_end(left) || at_end(right),
            _ => false,
        });
        let trigger = self.trigger.filter(|_| asks.iter().any(|ask| ask.tokens().contains(&0)));
        let trigger = trigger.map(|t| format!("the trigger at {}", times(&t)));
        let end = ends.then(|| format!("the plan's end at {}", self.end));
        let known: Vec<String> = [trigger, end].into_iter().flatten().collect();
        match known.is_empty() {
            true => String::new(),
            false => format!(" with {}", list(&known, "and")),
        }
    }

    fn no_token(&self, ask: usize, name: usize, nearest: &Stretch) -> String {
        let place = self.place(name);
        let near = times(nearest);
        let Some(ask) = self.way.asks.get(ask) else { return String::new() };
        let trigger = || self.trigger.as_ref().map_or(String::new(), times);
        match *ask {
            Ask::Relation { left, right, .. } if left == right => {
                format!(
                    "no {place} {} itself: a token only equals itself",
                    relations(self.set(ask, name))
                )
            }
            Ask::Relation { .. } => {
                let verbs = relations(self.set(ask, name));
                let stands = self.trigger.map_or(String::new(), |t| stands(nearest, &t));
                format!(
                    "no {place} {verbs} {}: the nearest is {near}, which {stands} it",
                    trigger()
                )
            }
            Ask::SameJob { .. } => {
                let job = self.trigger.map_or(0, |t| t.job);
                let other = nearest.job;
                format!("no {place} is of the trigger's job, {job}: the nearest is {near}, of job {other}")
            }
            Ask::Bound { left, right, lower, upper } => {
                let told = self.bound(left, right, lower, upper, name);
                format!("no {place} {told}: the nearest is {near}")
            }
        }
    }

    /// The relations as the name has them to the other token.
    fn set(&self, ask: &Ask, name: usize) -> u32 {
        match *ask {
            Ask::Relation { left, set, .. } if left == name => set,
            Ask::Relation { set, .. } => relation::converse(set),
            _ => 0,
        }
    }

    /// "ends at or after 50, the trigger's end".
    fn bound(&self, left: Term, right: Term, lower: u32, upper: u32, name: usize) -> String {
        let own = |term: Term| matches!(term, Term::Start(n) | Term::End(n) if n == name);
        let (mine, other, side) =
            if own(right) { (right, left, "after") } else { (left, right, "before") };
        let verb = if matches!(mine, Term::Start(_)) { "starts" } else { "ends" };
        let object = match other {
            Term::Start(n) if n == name => "it starts".to_string(),
            Term::End(n) if n == name => "it ends".to_string(),
            Term::Start(_) => format!("{}, the trigger's start", self.time(other)),
            Term::End(_) => format!("{}, the trigger's end", self.time(other)),
            Term::PlanEnd => format!("{}, the end of the plan", self.time(other)),
            Term::Time(time) => time.to_string(),
        };
        match (lower, upper) {
            (0, 0) if own(other) => format!("{verb} when {object}"),
            (0, 0) => format!("{verb} at {object}"),
            _ => format!("{verb} {} {object}", amount(lower, upper, side)),
        }
    }

    /// A moment that the trigger and the plan settle.
    fn time(&self, term: Term) -> u64 {
        match term {
            Term::Start(_) => self.trigger.map_or(0, |t| t.start),
            Term::End(_) => self.trigger.map_or(0, |t| t.end),
            Term::Time(time) => time.into(),
            Term::PlanEnd => self.end,
        }
    }
}

/// The one relation that two stretches stand in, as a verb.
fn stands(left: &Stretch, right: &Stretch) -> String {
    let mut chosen: Choice = [None; 5];
    (chosen[0], chosen[1]) = (Some(*left), Some(*right));
    let holds = |r: &usize| {
        super::why::distance(&Ask::Relation { left: 0, right: 1, set: 1 << r }, &chosen, 0) == 0
    };
    (0..relation::NAMES.len()).find(holds).map_or(String::new(), relation::verb)
}
