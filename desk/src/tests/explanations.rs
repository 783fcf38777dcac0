//! What the explanation of a 12 says of each alternative is really so.

use crate::answer::sentence::{tell, Case};
use crate::answer::why::{why, Why};
use crate::encode;
use crate::model::{Ask, Kind, Plan, Rules, Term, Way};
use crate::picture::{svg, terminal, Picture};
use crate::scene::{Scene, Stretch};
use crate::trial::brute::{choices, holds, unmet};
use crate::trial::generate::{self, Rng, Size};
use crate::words::to_bytes;

const SIZE: Size = Size { timelines: 3, values: 2, rules: 2, ways: 3, asks: 5, tokens: 5 };

/// What is claimed of one alternative for one trigger, tested by trying everything.
struct Claim<'a> {
    way: &'a Way,
    trigger: Stretch,
    scene: &'a Scene,
}

impl Claim<'_> {
    fn names(&self, ask: &Ask) -> Vec<usize> {
        ask.tokens().into_iter().filter(|t| *t > 0).collect()
    }

    /// The alternative with its first names only.
    fn choices(&self, names: usize) -> Vec<Vec<Stretch>> {
        let names = self.way.names[..names].to_vec();
        choices(&Way { names, asks: Vec::new() }, self.trigger, self.scene)
    }

    fn holds(&self, ask: usize, chosen: &[Stretch]) -> bool {
        holds(&self.way.asks[ask], chosen, self.scene.end)
    }

    fn fits(&self, name: usize, token: &Stretch) -> bool {
        let place = self.way.names[name - 1].place;
        self.scene.lines[place.timeline].contains(token) && token.value as usize == place.value
    }

    /// Every token that could stand for the name, with any for the other names.
    fn with(&self, name: usize) -> Vec<Vec<Stretch>> {
        let mut all = Vec::new();
        for token in &self.scene.lines[self.way.names[name - 1].place.timeline] {
            if self.fits(name, token) {
                let mut chosen = vec![self.trigger; 5];
                chosen[name] = *token;
                all.push(chosen);
            }
        }
        all
    }

    fn is_so(&self, why: &Why) -> bool {
        match why {
            Why::Fails { ask } => {
                self.names(&self.way.asks[*ask]).is_empty() && !self.holds(*ask, &[self.trigger])
            }
            Why::Missing { name } => self.with(*name).is_empty(),
            Why::NoToken { ask, name, nearest } => {
                self.names(&self.way.asks[*ask]) == [*name]
                    && self.fits(*name, nearest)
                    && self.with(*name).iter().all(|c| !self.holds(*ask, c))
                    && self.is_nearest(*ask, *name, nearest)
            }
            Why::NotTogether { name, nearest, fails } => {
                let own: Vec<usize> = (0..self.way.asks.len())
                    .filter(|a| self.names(&self.way.asks[*a]) == [*name])
                    .collect();
                let fit = |c: &Vec<Stretch>| own.iter().all(|a| self.holds(*a, c));
                let mut chosen = vec![self.trigger; 5];
                chosen[*name] = *nearest;
                self.fits(*name, nearest)
                    && own.contains(fails)
                    && !self.holds(*fails, &chosen)
                    && !self.with(*name).iter().any(fit)
            }
            Why::NoPair { ask, names, nearest } => {
                self.names(&self.way.asks[*ask]) == *names
                    && (0..2).all(|k| self.fits(names[k], &nearest[k]))
                    && self.choices(self.way.names.len()).iter().all(|c| !self.holds(*ask, c))
            }
            Why::NoChoice { placed, name, nearest, fails } => {
                self.no_choice(placed, *name, nearest, *fails)
            }
            Why::TooMany => false,
        }
    }

    fn no_choice(&self, placed: &[Stretch], name: usize, nearest: &Stretch, fails: usize) -> bool {
        let ready = |last: usize| {
            let asks = 0..self.way.asks.len();
            asks.filter(move |a| self.names(&self.way.asks[*a]).iter().max() == Some(&last))
        };
        let chosen = [&[self.trigger], placed].concat();
        let before = (1..name)
            .all(|n| self.fits(n, &placed[n - 1]) && ready(n).all(|a| self.holds(a, &chosen)));
        let none = self.with(name).iter().all(|c| {
            let more = [chosen.as_slice(), &[c[name]]].concat();
            !ready(name).all(|a| self.holds(a, &more))
        });
        let near = [chosen.as_slice(), &[*nearest]].concat();
        placed.len() + 1 == name
            && before
            && none
            && self.fits(name, nearest)
            && ready(name).any(|a| a == fails)
            && !self.holds(fails, &near)
    }

    /// No other token misses a bound by less.
    fn is_nearest(&self, ask: usize, name: usize, nearest: &Stretch) -> bool {
        let Ask::Bound { left, right, lower, upper } = self.way.asks[ask] else { return true };
        let missed = |token: &Stretch| {
            let of = |n: usize| if n == name { *token } else { self.trigger };
            let time = |term: Term| match term {
                Term::Start(n) => of(n).start as i64,
                Term::End(n) => of(n).end as i64,
                Term::Time(t) => t.into(),
                Term::PlanEnd => self.scene.end as i64,
            };
            let d = time(right) - time(left);
            match d < i64::from(lower) {
                true => i64::from(lower) - d,
                false => d - i64::from(upper),
            }
        };
        self.with(name).iter().all(|c| missed(nearest) <= missed(&c[name]))
    }
}

/// Checks every 12 of a case; counts the explanations by their kind.
fn case(rules: &Rules, plan: &Plan, seen: &mut [usize; 6]) {
    let scene = Scene::new(plan);
    for (number, trigger) in unmet(rules, plan) {
        let rule = &rules.rules[number];
        let given = rule.trigger.as_ref().map(|_| trigger);
        let all = why(rule, given, &scene);
        assert_eq!(all.len(), rule.ways.len());
        for (way, why) in rule.ways.iter().zip(&all) {
            let claim = Claim { way, trigger, scene: &scene };
            assert!(claim.is_so(why), "{why:?}\n{way:?}\n{trigger:?}\n{plan:?}");
            seen[match why {
                Why::Fails { .. } => 0,
                Why::Missing { .. } => 1,
                Why::NoToken { .. } => 2,
                Why::NotTogether { .. } => 3,
                Why::NoPair { .. } => 4,
                Why::NoChoice { .. } | Why::TooMany => 5,
            }] += 1;
        }
        told(rules, plan, number, trigger, &all);
    }
}

/// The sentences and pictures name what the explanation found.
fn told(rules: &Rules, plan: &Plan, number: usize, trigger: Stretch, all: &[Why]) {
    let (book, bytes) = (to_bytes(&encode::rules(rules)), to_bytes(&encode::plan(plan)));
    let case = Case {
        kind: rules.kind,
        book: &book,
        rules: Some(rules),
        plan_bytes: &bytes,
        plan: Some(plan),
    };
    let told = tell([12, number as u32, trigger.token as u32, 0], &case);
    assert_eq!(told.lines.len(), 1 + all.len());
    for (line, why) in told.lines[1..].iter().zip(all) {
        for near in why.nearest() {
            let times = format!("{} to {}", near.start, near.end);
            assert!(line.contains(&times) || line.contains("itself"), "{line}");
        }
        assert!(!line.contains("  ") && !line.contains(" ,"), "{line}");
    }
    let scene = Scene::new(plan);
    let title = String::new();
    let picture =
        Picture { house: &rules.house, scene: &scene, title, told: &told, from: None, to: None };
    assert!(svg(&picture).ends_with("</svg>\n"));
    assert!(terminal(&picture).lines().all(|l| l.chars().count() <= 160));
}

fn run(kind: Kind) -> [usize; 6] {
    let mut seen = [0; 6];
    for number in 0..20_000 {
        let mut rng = Rng::new(12, number);
        let house = generate::house(&mut rng, SIZE, true);
        let rules = generate::rules(&mut rng, kind, house, SIZE);
        let plan = generate::plan(&mut rng, &rules.house, SIZE);
        case(&rules, &plan, &mut seen);
    }
    seen
}

#[test]
fn of_books_are_so() {
    let seen = run(Kind::Book);
    assert!(seen.iter().all(|n| *n > 20), "{seen:?}");
}

#[test]
fn of_sheets_are_so() {
    // A constraint always speaks of tokens, and one of the trigger alone is of itself.
    let seen = run(Kind::Sheet);
    assert!(seen.iter().all(|n| *n > 20), "{seen:?}");
}
