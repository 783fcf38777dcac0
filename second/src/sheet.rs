//! Constraints in Allen's relations, read directly on the tokens.

use crate::decode::{Owner, Test};
use crate::layout::Kind;
use crate::placed::Placed;
use std::cmp::Ordering::{Equal, Greater, Less};

/// How many relations there are.
pub const RELATIONS: u32 = 13;

/// The one relation in which two tokens stand, each given by start and end.
/// Durations are positive, so the order of starts and of ends settles all but
/// those that may lie apart.
pub fn relation<T: Ord>(left: (T, T), right: (T, T)) -> u32 {
    match (left.0.cmp(&right.0), left.1.cmp(&right.1)) {
        (Less, Less) => match left.1.cmp(&right.0) {
            Less => 0,
            Equal => 1,
            Greater => 2,
        },
        (Less, Equal) => 3,
        (Less, Greater) => 4,
        (Equal, Less) => 5,
        (Equal, Equal) => 6,
        (Equal, Greater) => 7,
        (Greater, Less) => 8,
        (Greater, Equal) => 9,
        (Greater, Greater) => match left.0.cmp(&right.1) {
            Less => 10,
            Equal => 11,
            Greater => 12,
        },
    }
}

pub struct Constraint {
    pub left: usize,
    pub right: usize,
    pub set: u32,
}

impl Test for Constraint {
    const KIND: Kind = Kind::Sheet;

    fn read(r: &[u32], owner: &Owner) -> Result<Constraint, u32> {
        let left = owner.token(r[0]).ok_or(0u32)?;
        let right = owner.token(r[1]).ok_or(1u32)?;
        let good = (1..1 << RELATIONS).contains(&r[2]);
        good.then_some(Constraint { left, right, set: r[2] }).ok_or(2)
    }

    fn last_name(&self) -> usize {
        self.left.max(self.right)
    }

    fn holds(&self, placed: &Placed) -> bool {
        let token = |t| (placed.at(Placed::start(t)), placed.at(Placed::end(t)));
        self.set >> relation(token(self.left), token(self.right)) & 1 == 1
    }
}
