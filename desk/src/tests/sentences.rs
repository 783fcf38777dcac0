//! The judge's numbers in words.

use crate::answer::sentence::{say, tell, Case};
use crate::answer::Answer;
use crate::decode;
use crate::model::{House, Kind};
use crate::words::{from_bytes, to_bytes, N};

const E: [u32; 52] = [
    1, 52, 2, 14, 4, 18, 1, 30, 1, 34, 1, 38, 2, 40, 0, 2, 2, 2, 1, N, 2, 1, N, 1, 1, N, 2, 5, 60,
    3, 1, 1, 0, 1, 0, 1, 0, 2, 0, 1, 0, 1, 0, 0, 0, N, 1, 0, 1, 1, 0, N,
];
const P2: [u32; 19] = [1, 19, 2, 0, 2, 2, 4, 0, 10, 1, 40, 0, 10, 1, 20, 0, 10, 1, 10];
/// A rule without trigger and one name: job of 1 = job of 1.
const J: [u32; 35] = [
    1, 35, 1, 14, 1, 16, 1, 19, 1, 23, 1, 27, 1, 29, 0, 1, 1, N, 1, N, 0, 0, 1, 0, 1, 0, 1, 0, 0,
    4, 1, 4, 1, 0, 0,
];

fn with(words: &[u32], at: usize, new: &[u32]) -> Vec<u32> {
    let mut words = words.to_vec();
    words.splice(at..at + new.len(), new.iter().copied());
    words
}

fn told(answer: Answer, kind: Kind, book: &[u32], plan: &[u32]) -> String {
    let (book, plan_bytes) = (to_bytes(book), to_bytes(plan));
    let words = |bytes: &[u8]| from_bytes(bytes).unwrap_or_default();
    let rules = decode::rules(&words(&book));
    let plan = decode::plan(&words(&plan_bytes));
    let case = Case {
        kind,
        book: &book,
        rules: rules.as_ref(),
        plan_bytes: &plan_bytes,
        plan: plan.as_ref(),
    };
    tell(answer, &case).lines.join("\n")
}

fn book(answer: Answer, words: &[u32]) -> String {
    told(answer, Kind::Book, words, &[])
}

fn plan(answer: Answer, words: &[u32]) -> String {
    told(answer, Kind::Book, &E, words)
}

#[test]
fn of_lengths_and_headers() {
    assert!(book([1, 0, 0, 0], &E[..13]).contains("has 52 bytes; expected 56 to 65536"));
    assert!(book([2, 0, 0, 0], &with(&E, 0, &[3])).contains("the edition, is 3; expected 1"));
    assert!(book([2, 1, 0, 0], &with(&E, 1, &[50])).contains("is 50; expected 52"));
    assert!(book([2, 2, 0, 0], &with(&E, 2, &[17])).contains("variables, is 17; expected 1 to 16"));
    assert!(book([2, 5, 0, 0], &with(&E, 5, &[19])).contains("table 1, is 19; expected 18"));
    let longer = [&E[..], &[0]].concat();
    assert!(book([3, 0, 0, 0], &longer).contains("ends at word 52, and the book has 53"));
    assert!(plan([5, 0, 0, 0], &P2[..6]).contains("has 24 bytes; expected 28 to 65536"));
    assert!(plan([6, 0, 0, 0], &with(&P2, 0, &[3])).contains("expected 1, or 2 with jobs"));
    assert!(plan([6, 2, 0, 0], &with(&P2, 2, &[3])).contains("timelines, is 3; expected 2"));
    assert!(plan([6, 5, 0, 0], &with(&P2, 5, &[3])).contains("timeline 1, is 3; expected 2"));
    assert!(plan([6, 6, 0, 0], &with(&P2, 6, &[513])).contains("is 513; expected 0 to 512"));
    assert!(plan([7, 0, 0, 0], &with(&P2, 6, &[5])).contains("7 tokens end at word 21"));
}

#[test]
fn of_every_word_of_a_record() {
    let cases: [(&[u32], usize, &[u32], [u32; 3], &str); 22] = [
        (&E, 16, &[1], [0, 1, 0], "first value, is 1; expected 2"),
        (&E, 17, &[33], [0, 1, 1], "expected 1 to 32, and no more than the 2 values left"),
        (&E, 18, &[0], [1, 0, 0], "least duration, is 0; expected 1 to 1000000000"),
        (&E, 28, &[4], [1, 3, 1], "is 4; expected 5 to 1000000000, or 4294967295"),
        (&E, 29, &[4], [1, 3, 2], "successor set, is 4; expected a bit for each of the 2 values"),
        (&E, 30, &[2], [2, 0, 0], "trigger variable, is 2; expected 0 to 1, or 4294967295"),
        (&E, 31, &[2], [2, 0, 1], "expected 0 to 1, a value of variable 1"),
        (&E, 30, &[N, 1], [2, 0, 1], "expected 0, as there is no trigger"),
        (&E, 32, &[1], [2, 0, 2], "first alternative, is 1; expected 0"),
        (&E, 33, &[0], [2, 0, 3], "expected 1 to 64, and no more than the 1 alternatives left"),
        (&E, 35, &[5], [3, 0, 1], "expected 0 to 4, and no more than the 1 names left"),
        (&E, 37, &[33], [3, 0, 3], "expected 0 to 32, and no more than the 2 atoms left"),
        (&E, 38, &[7], [4, 0, 0], "variable, is 7; expected 0 to 1"),
        (&E, 39, &[7], [4, 0, 1], "value, is 7; expected 0 to 1, a value of variable 0"),
        (&E, 41, &[2], [5, 0, 1], "expected 0 for the trigger, or 1 to 1 for a name"),
        (&J, 29, &[4, 1, 0, 1], [5, 0, 2], "right kind, is 0; expected 4, job, as on the left"),
        (&J, 29, &[0, 1, 4, 1], [5, 0, 2], "4, job, stands on both sides or on neither"),
        (&J, 29, &[4, 0], [5, 0, 1], "expected 1 to 1 for a name, as there is no trigger"),
        (&J, 33, &[1, 1], [5, 0, 4], "lower, is 1; expected 0, as jobs are only compared"),
        (&J, 29, &[5], [5, 0, 0], "expected 0 start, 1 end, 2 time point, 3 end of the plan or 4"),
        (&J, 29, &[3, 1, 0, 1], [5, 0, 1], "left argument, is 1; expected 0"),
        (&J, 29, &[0, 1, 1, 1, 5, 4], [5, 0, 5], "upper, is 4; expected 5 to 1000000000, or"),
    ];
    for (words, at, new, [table, record, word], says) in cases {
        let words = with(words, at, new);
        assert!(decode::rules(&words).is_none(), "{says}");
        let sentence = book([4, table, record, word], &words);
        assert!(sentence.contains(says), "{sentence}\n{says}");
    }
    let unused = book([4, 3, 1, 0], &with(&E, 35, &[0]));
    assert!(unused.contains("alternatives, are good but leave names or what is asked unused"));
    let sheet: Vec<u32> =
        [&[2, 43], &E[2..13], &[40], &E[14..36], &[0, 1, 0, 1, 0, 1, 8192]].concat();
    let sheet = with(&sheet, 12, &[1]);
    let sentence = told([4, 5, 0, 2], Kind::Sheet, &sheet, &[]);
    assert!(sentence.contains("constraints, record 0, word 2, the relation set, is 8192"));
}

#[test]
fn of_tokens() {
    let says = |answer: Answer, at: usize, new: u32| plan(answer, &with(&P2, at, &[new]));
    assert!(says([8, 0, 1, 0], 9, 2).contains("token 1 of timeline 0, 10 to 50, has value 2;"));
    assert!(says([9, 1, 1, 0], 14, 4).contains("10 to 14 (token 1), lasts 4; it lasts 5 to 60"));
    assert!(says([10, 0, 1, 0], 9, 0).contains("can't follow value 0; after value 0 comes value 1"));
    assert!(says([11, 0, 1, 0], 10, 999_999_991).contains("10 to 1000000001 (token 1), ends after"));
    assert!(says([18, 1, 0, 0], 14, 5).contains("timeline 1 ends at 35 and timeline 0 at 50"));
    assert_eq!(plan([0, 2, 0, 0], &P2), "Accepted: 2 trigger tokens were examined.");
}

/// Each number of the card has a sentence of its own.
#[test]
fn of_all_numbers() {
    let house = House::default();
    let mut seen = Vec::new();
    for number in (0..=27).filter(|n| *n != 23) {
        let sentence = say([number, 6, 0, 0], &house);
        assert!(sentence.ends_with('.') && !seen.contains(&sentence), "{number}: {sentence}");
        assert!(!sentence.contains("No answer"), "{number}");
        seen.push(sentence);
    }
    assert!(say([23, 0, 0, 0], &house).contains("No answer"));
}
