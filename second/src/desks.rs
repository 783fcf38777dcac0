//! Two desks share a book and a plan; each is judged by its own rules.

use crate::decode::{decode, Book};
use crate::layout::Answer;
use crate::plan::tokens;
use crate::search::{judge_some, Atom};
use crate::specimens::{B1, E, P1, P2};

/// The desks that there are.
pub const DESKS: u32 = 2;

/// Whether the list has a desk for each rule, and nothing else.
pub fn list_right(rules: usize, desks: &[u32]) -> bool {
    desks.len() == rules && desks.iter().all(|desk| *desk < DESKS)
}

/// Judges a plan by the rules of one desk.
pub fn judge_desk(book: &[u32], plan: &[u32], desks: &[u32], desk: u32) -> Answer {
    let judged = || -> Result<Answer, Answer> {
        let book: Book<Atom> = decode(book)?;
        if !list_right(book.rules.len(), desks) || desk >= DESKS {
            return Err([19, 0, 0, 0]);
        }
        let tokens = tokens(&book, plan)?;
        Ok(judge_some(&book, &tokens, |rule| desks[rule] == desk))
    };
    judged().unwrap_or_else(|fault| fault)
}

/// A book, a plan, the list of desks, the desk that asks, and what it gets.
pub struct Specimen {
    pub name: &'static str,
    pub book: Vec<u32>,
    pub plan: Vec<u32>,
    pub desks: Vec<u32>,
    pub desk: u32,
    pub answer: Answer,
}

pub fn specimens() -> Vec<Specimen> {
    let e = |name, plan: &[u32], desks: &[u32], desk, answer| Specimen {
        name,
        book: E.to_vec(),
        plan: plan.to_vec(),
        desks: desks.to_vec(),
        desk,
        answer,
    };
    let refused = [19, 0, 0, 0];
    vec![
        e("a desk without rules", &P1, &[1], 0, [0, 0, 0, 0]),
        e("the desk of the rule", &P1, &[1], 1, [12, 0, 3, 0]),
        e("the desk of the rule, P2", &P2, &[1], 1, [0, 2, 0, 0]),
        e("a word over 1, and no plan", &[], &[2], 0, refused),
        e("a desk over 1", &P2, &[0], 2, refused),
        e("a list too long", &P2, &[0, 0], 0, refused),
        e("a list too short", &P2, &[], 0, refused),
        e("no plan, and a list that is right", &[], &[0], 0, [5, 0, 0, 0]),
        Specimen {
            name: "no rules, and an empty list",
            book: B1.to_vec(),
            plan: vec![1, 5, 1, 0, 0],
            desks: vec![],
            desk: 1,
            answer: [0, 0, 0, 0],
        },
        Specimen {
            name: "a bad book before a bad list",
            book: E[..13].to_vec(),
            plan: vec![],
            desks: vec![7],
            desk: 9,
            answer: [1, 0, 0, 0],
        },
    ]
}

#[cfg(test)]
mod tests {
    use super::*;
    use crate::generate::random::{pair, SMALL};
    use crate::generate::rng::Rng;
    use crate::judge;
    use crate::layout::Kind;

    #[test]
    fn specimens_give_their_lines() {
        for s in specimens() {
            assert_eq!(judge_desk(&s.book, &s.plan, &s.desks, s.desk), s.answer, "{}", s.name);
        }
    }

    /// The undivided judge says what the desk says whose rule comes first.
    #[test]
    fn both_desks_together_are_the_judge() {
        let mut apart = 0;
        for case in 0..3_000 {
            let mut rng = Rng::new(11, case);
            let (draft, plan) = pair(&mut rng, Kind::Book, SMALL);
            let (book, plan) = (draft.words(), plan.words());
            let desks: Vec<u32> = draft.rules.iter().map(|_| rng.below(2)).collect();
            let [first, second] = [0, 1].map(|desk| judge_desk(&book, &plan, &desks, desk));
            let whole = match (first[0], second[0]) {
                (0, 0) => [0, first[1] + second[1], 0, 0],
                (12, 12) => first.min(second),
                (12, _) => first,
                _ => second,
            };
            assert_eq!(judge(&book, &plan), whole, "case {case}");
            apart += u32::from((first[0] == 12) != (second[0] == 12));
        }
        assert!(apart > 300, "{apart} failed for one desk only");
    }
}
