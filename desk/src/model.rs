//! What houses, rules, plans and lists of events say, apart from words and text.

use crate::words::N;

/// The timelines with their values. Names are the text's; words have none.
#[derive(Clone, Debug, Default, PartialEq, Eq)]
pub struct House {
    pub timelines: Vec<Timeline>,
}

#[derive(Clone, Debug, Default, PartialEq, Eq)]
pub struct Timeline {
    pub name: Option<String>,
    pub values: Vec<Value>,
}

#[derive(Clone, Debug, Default, PartialEq, Eq)]
pub struct Value {
    pub name: Option<String>,
    pub least: u32,
    /// N for no limit.
    pub greatest: u32,
    /// Bit j says that value j may follow.
    pub then: u32,
}

/// A value of a timeline.
#[derive(Clone, Copy, Debug, PartialEq, Eq)]
pub struct Place {
    pub timeline: usize,
    pub value: usize,
}

#[derive(Clone, Copy, Debug, PartialEq, Eq)]
pub enum Kind {
    Book,
    Sheet,
}

impl Kind {
    pub fn edition(self) -> u32 {
        match self {
            Kind::Book => 1,
            Kind::Sheet => 2,
        }
    }

    pub fn word(self) -> &'static str {
        match self {
            Kind::Book => "book",
            Kind::Sheet => "sheet",
        }
    }

    /// Words of an atom or a constraint.
    pub fn ask_words(self) -> usize {
        match self {
            Kind::Book => 6,
            Kind::Sheet => 3,
        }
    }

    /// Most atoms or constraints of an alternative.
    pub fn most_asks(self) -> usize {
        match self {
            Kind::Book => 32,
            Kind::Sheet => 8,
        }
    }
}

/// A book or a sheet.
#[derive(Clone, Debug, PartialEq, Eq)]
pub struct Rules {
    pub kind: Kind,
    pub house: House,
    pub rules: Vec<Rule>,
}

#[derive(Clone, Debug, PartialEq, Eq)]
pub struct Rule {
    pub title: Option<String>,
    pub trigger: Option<Named>,
    pub ways: Vec<Way>,
}

/// A token that a rule speaks of, and what the text calls it.
#[derive(Clone, Debug, PartialEq, Eq)]
pub struct Named {
    pub place: Place,
    pub called: Option<String>,
}

/// An alternative.
#[derive(Clone, Debug, Default, PartialEq, Eq)]
pub struct Way {
    pub names: Vec<Named>,
    pub asks: Vec<Ask>,
}

/// A moment of an atom; tokens are 0 for the trigger, 1.. for the names.
#[derive(Clone, Copy, Debug, PartialEq, Eq)]
pub enum Term {
    Start(usize),
    End(usize),
    Time(u32),
    PlanEnd,
}

/// An atom of a book or a constraint of a sheet.
#[derive(Clone, Copy, Debug, PartialEq, Eq)]
pub enum Ask {
    /// Right minus left is at least lower and at most upper.
    Bound {
        left: Term,
        right: Term,
        lower: u32,
        upper: u32,
    },
    SameJob {
        left: usize,
        right: usize,
    },
    /// Left stands to right in one of a set of Allen's relations.
    Relation {
        left: usize,
        right: usize,
        set: u32,
    },
}

impl Ask {
    /// The tokens that it speaks of.
    pub fn tokens(&self) -> Vec<usize> {
        let of = |term: Term| match term {
            Term::Start(token) | Term::End(token) => Some(token),
            Term::Time(_) | Term::PlanEnd => None,
        };
        let both = match *self {
            Ask::Bound { left, right, .. } => [of(left), of(right)],
            Ask::SameJob { left, right } | Ask::Relation { left, right, .. } => {
                [Some(left), Some(right)]
            }
        };
        let mut tokens: Vec<usize> = both.into_iter().flatten().collect();
        tokens.sort_unstable();
        tokens.dedup();
        tokens
    }
}

#[derive(Clone, Debug, PartialEq, Eq)]
pub struct Plan {
    /// Edition 2: tokens carry jobs.
    pub jobs: bool,
    pub lines: Vec<Vec<Token>>,
}

#[derive(Clone, Copy, Debug, PartialEq, Eq)]
pub struct Token {
    pub value: u32,
    pub duration: u32,
    pub job: u32,
}

/// The starts and ends of a plan's tokens in time order.
#[derive(Clone, Debug, PartialEq, Eq)]
pub struct Events {
    pub jobs: bool,
    pub events: Vec<Event>,
}

#[derive(Clone, Debug, PartialEq, Eq)]
pub struct Event {
    pub time: u64,
    pub actions: Vec<Action>,
}

#[derive(Clone, Copy, Debug, PartialEq, Eq)]
pub struct Action {
    pub timeline: u32,
    pub value: u32,
    pub starts: bool,
    pub job: u32,
}

impl Value {
    pub fn lasts(&self, duration: u32) -> bool {
        duration >= self.least && (self.greatest == N || duration <= self.greatest)
    }

    pub fn may_follow(&self, value: u32) -> bool {
        value < 32 && self.then >> value & 1 == 1
    }
}
