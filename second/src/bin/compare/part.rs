//! A part of the comparison that can be run alone.

use crate::both::Both;
use crate::tally::Door;
use second::generate::rng::Rng;

pub struct Part {
    pub name: &'static str,
    pub doors: &'static [&'static Door],
    /// The law's specimens; gives how many they are.
    pub specimens: fn(&mut Both) -> u64,
    /// Cases that are the same in every run; gives how many they are.
    pub fixed: fn(&mut Both) -> u64,
    /// One random case.
    pub random: fn(&mut Both, &mut Rng),
    /// How many random cases there are if nothing else is said.
    pub cases: u64,
}

/// What a part did.
#[derive(Default)]
pub struct Done {
    pub specimens: u64,
    pub cases: u64,
}

impl Part {
    /// All of it, or only the random cases from `first` on.
    pub fn run(&self, both: &mut Both, cases: Option<u64>, seed: u64, first: Option<u64>) -> Done {
        let mut done = Done::default();
        if first.is_none() {
            done.specimens = (self.specimens)(both);
            done.cases = (self.fixed)(both);
        }
        let from = first.unwrap_or(0);
        for case in from..from + cases.unwrap_or(self.cases) {
            both.case = format!("random case {case} of {}, seed {seed}", self.name);
            (self.random)(both, &mut Rng::new(seed, case));
            done.cases += 1;
        }
        done
    }
}
