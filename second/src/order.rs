//! Books that speak only of order, judged by ranks.

use crate::decode::{decode, Book};
use crate::layout::{tables, Answer, Kind, LAST, N};
use crate::plan::tokens;
use crate::search::{judge_rules, Atom};
use crate::specimens::plan_end::j;
use crate::specimens::{with, B1, E, P1, P2};

/// The bounds that ask for nothing but an order.
const BOUNDS: [[u32; 2]; 3] = [[0, N], [1, N], [0, 0]];

/// Whether no atom of a sound book asks for more than an order: no time point,
/// no end of the plan, and one of the three bounds.
fn in_profile(book: &[u32]) -> bool {
    let records = tables(book, Kind::Book).expect("it was decoded");
    let fixed = |kind: u32| kind == 2 || kind == 3;
    let good = |r: &[u32]| !fixed(r[0]) && !fixed(r[2]) && BOUNDS.contains(&[r[4], r[5]]);
    records.records(5).all(good)
}

/// Whether a book is sound and speaks only of order.
pub fn order_only(book: &[u32]) -> bool {
    decode::<Atom>(book).is_ok() && in_profile(book)
}

/// Judges a plan by such a book, with the rank of each start and end, among
/// those of all lines, in place of its time.
pub fn judge_by_order(book: &[u32], plan: &[u32]) -> Answer {
    let judged = || -> Result<Answer, Answer> {
        let decoded: Book<Atom> = decode(book)?;
        if !in_profile(book) {
            return Err([26, 0, 0, 0]);
        }
        let tokens = tokens(&decoded, plan)?;
        let mut times: Vec<u32> = tokens.all().iter().flat_map(|s| [s.start, s.end]).collect();
        times.sort_unstable();
        times.dedup();
        // Where a time would have to be put in, if it weren't there.
        let rank = |time: u32| times.partition_point(|t| *t < time) as u32;
        Ok(judge_rules(&decoded, &tokens.moved(rank)))
    };
    judged().unwrap_or_else(|fault| fault)
}

/// A book and a plan, whether the book speaks only of order, and the answer.
pub struct Specimen {
    pub name: &'static str,
    pub book: Vec<u32>,
    pub plan: Vec<u32>,
    pub order_only: bool,
    pub answer: Answer,
}

pub fn specimens() -> Vec<Specimen> {
    let outside = [26, 0, 0, 0];
    let made = |(name, book, plan, order_only, answer): (_, Vec<u32>, &[u32], _, _)| {
        let plan = plan.to_vec();
        Specimen { name, book, plan, order_only, answer }
    };
    let e = E.to_vec();
    [
        ("E and P1 by order", e.clone(), &P1[..], true, [12, 0, 3, 0]),
        ("E and P2 by order", e.clone(), &P2[..], true, [0, 2, 0, 0]),
        ("E and no plan", e, &[], true, [5, 0, 0, 0]),
        ("a book without rules", B1.to_vec(), &[1, 5, 1, 0, 0], true, [0, 0, 0, 0]),
        ("jobs are in the profile", j([4, 1, 4, 1, 0, 0]), &[], true, [5, 0, 0, 0]),
        ("an upper of the last tick", j([0, 1, 1, 1, 0, LAST]), &[], false, outside),
        ("the end of the plan", j([0, 1, 3, 0, 0, N]), &[], false, outside),
        ("a time point", j([2, 0, 0, 1, 0, N]), &[], false, outside),
        ("bounds of 1 and 1", j([0, 1, 1, 1, 1, 1]), &[], false, outside),
        ("bounds of 2 and N", j([0, 1, 1, 1, 2, N]), &[], false, outside),
        ("no sound book", j([4, 1, 4, 1, 0, 0])[..28].to_vec(), &[], false, [2, 1, 0, 0]),
        ("a bad atom", with(&E, 40, 9), &P2, false, [4, 5, 0, 0]),
    ]
    .map(made)
    .into()
}

#[cfg(test)]
mod tests {
    use super::*;
    use crate::generate::order;
    use crate::generate::rng::Rng;
    use crate::judge;

    #[test]
    fn specimens_give_their_lines() {
        for s in specimens() {
            assert_eq!(order_only(&s.book), s.order_only, "{}", s.name);
            assert_eq!(judge_by_order(&s.book, &s.plan), s.answer, "{}", s.name);
        }
    }

    /// And a plan whose times are others in the same order gets the same.
    #[test]
    fn by_order_as_by_time() {
        let [mut met, mut failed, mut outside] = [0; 3];
        for case in 0..3_000 {
            let mut rng = Rng::new(17, case);
            let (draft, plan) = order::case(&mut rng);
            let (book, words) = (draft.words(), plan.words());
            let answer = judge_by_order(&book, &words);
            if !order_only(&book) {
                assert_eq!(answer, [26, 0, 0, 0], "case {case}");
                outside += 1;
                continue;
            }
            assert_eq!(answer, judge(&book, &words), "case {case}");
            let stretched = order::stretched(&mut rng, &plan).words();
            assert_eq!(judge(&book, &stretched), answer, "case {case}");
            met += u32::from(answer[0] == 0 && answer[1] > 0);
            failed += u32::from(answer[0] == 12);
        }
        assert!(met > 300 && failed > 300 && outside > 300, "{met}, {failed}, {outside}");
    }
}
