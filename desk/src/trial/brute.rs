//! Whether a rule is met, by trying every choice: slow, plain, and apart from
//! what the explanations use.

use crate::model::{Ask, Plan, Rule, Rules, Term, Way};
use crate::scene::{Scene, Stretch};
use std::cmp::Ordering::{Equal, Greater, Less};

pub fn holds(ask: &Ask, chosen: &[Stretch], end: u64) -> bool {
    match *ask {
        Ask::Bound { left, right, lower, upper } => {
            let time = |term: Term| -> i128 {
                match term {
                    Term::Start(n) => chosen[n].start.into(),
                    Term::End(n) => chosen[n].end.into(),
                    Term::Time(t) => t.into(),
                    Term::PlanEnd => end.into(),
                }
            };
            let difference = time(right) - time(left);
            difference >= lower.into() && (upper == u32::MAX || difference <= upper.into())
        }
        Ask::SameJob { left, right } => chosen[left].job == chosen[right].job,
        Ask::Relation { left, right, set } => {
            set >> relation(&chosen[left], &chosen[right]) & 1 == 1
        }
    }
}

/// The number of the relation, from the orders of starts and ends.
pub fn relation(l: &Stretch, r: &Stretch) -> u32 {
    match (l.start.cmp(&r.start), l.end.cmp(&r.end)) {
        _ if l.end < r.start => 0,
        _ if l.end == r.start => 1,
        _ if r.end < l.start => 12,
        _ if r.end == l.start => 11,
        (Less, Less) => 2,
        (Less, Equal) => 3,
        (Less, Greater) => 4,
        (Equal, Less) => 5,
        (Equal, Equal) => 6,
        (Equal, Greater) => 7,
        (Greater, Less) => 8,
        (Greater, Equal) => 9,
        (Greater, Greater) => 10,
    }
}

/// Every choice of a token for each name, the trigger first; a rule without
/// trigger has a token there that nothing speaks of.
pub fn choices(way: &Way, trigger: Stretch, scene: &Scene) -> Vec<Vec<Stretch>> {
    let mut all = vec![vec![trigger]];
    for name in &way.names {
        let line = &scene.lines[name.place.timeline];
        let own: Vec<_> = line.iter().filter(|s| s.value as usize == name.place.value).collect();
        let longer = |c: &Vec<Stretch>| {
            own.iter().map(|s| [c.as_slice(), &[**s]].concat()).collect::<Vec<_>>()
        };
        all = all.iter().flat_map(longer).collect();
    }
    all
}

pub const NO_TRIGGER: Stretch =
    Stretch { timeline: 0, token: 0, value: 0, job: 0, start: 0, end: 0 };

pub fn triggers(rule: &Rule, scene: &Scene) -> Vec<Stretch> {
    rule.trigger.as_ref().map_or(vec![NO_TRIGGER], |t| {
        let line = &scene.lines[t.place.timeline];
        line.iter().filter(|s| s.value as usize == t.place.value).copied().collect()
    })
}

fn met(rule: &Rule, trigger: Stretch, scene: &Scene) -> bool {
    rule.ways.iter().any(|way| {
        let all = |c: &Vec<Stretch>| way.asks.iter().all(|ask| holds(ask, c, scene.end));
        choices(way, trigger, scene).iter().any(all)
    })
}

/// Rule and trigger of every 12 that a judge could come to.
pub fn unmet(rules: &Rules, plan: &Plan) -> Vec<(usize, Stretch)> {
    let scene = Scene::new(plan);
    let mut all = Vec::new();
    for (number, rule) in rules.rules.iter().enumerate() {
        let own = triggers(rule, &scene).into_iter().filter(|t| !met(rule, *t, &scene));
        all.extend(own.map(|t| (number, t)));
    }
    all
}
