//! Any words and any bytes at all: an answer, and no panic.

use crate::answer::sentence::{tell, Case};
use crate::model::{House, Kind};
use crate::text::{self, write, NoHouse};
use crate::trial::generate::{self, damaged, Rng, SMALL};
use crate::words::{from_bytes, to_bytes};
use crate::{decode, encode};

fn no_house(_: &str) -> Result<House, NoHouse> {
    Err(NoHouse::Message("no file here".to_string()))
}

#[test]
fn words_are_read_or_not() {
    for case in 0..20_000 {
        let mut rng = Rng::new(4, case);
        let kind = rng.pick(&[Kind::Book, Kind::Sheet]);
        let house = generate::house(&mut rng, SMALL, false);
        let rules = generate::rules(&mut rng, kind, house, SMALL);
        let plan = generate::plan(&mut rng, &rules.house, SMALL);
        let book = damaged(&mut rng, &encode::rules(&rules));
        let words = damaged(&mut rng, &encode::plan(&plan));
        let list = damaged(&mut rng, &encode::events(&generate::events(&plan)));
        let (read, read_plan) = (decode::rules(&book), decode::plan(&words));
        if let Some(rules) = &read {
            assert_eq!(encode::rules(rules), book);
            write::rules(rules);
        }
        if let Some(plan) = &read_plan {
            assert_eq!(encode::plan(plan), words);
            write::plan(plan, &rules.house, None);
        }
        if let Some(list) = decode::events(&list) {
            write::events(&list, &rules.house, None);
        }
        // Any answer for any words gets a sentence.
        let answer = [rng.from(0, 30), rng.from(0, 9), rng.from(0, 9), rng.from(0, 9)];
        let (book, plan_bytes) = (to_bytes(&book), to_bytes(&words));
        let case = Case {
            kind,
            book: &book,
            rules: read.as_ref(),
            plan_bytes: &plan_bytes,
            plan: read_plan.as_ref(),
        };
        assert!(!tell(answer, &case).lines.is_empty());
    }
    assert_eq!(from_bytes(&[1, 2, 3]), None);
}

#[test]
fn texts_are_read_or_not() {
    const PARTS: [&str; 40] = [
        "house",
        "book",
        "sheet",
        "plan",
        "events",
        "\n",
        "\n",
        "\n",
        "timeline",
        "value",
        "rule",
        "for each",
        "some",
        "called",
        "on",
        "either",
        "or",
        "starts",
        "ends",
        "before",
        "at least",
        "and at most",
        "a",
        "b",
        "0",
        "7",
        "99999999999",
        ",",
        ":",
        "'s",
        "\"",
        "\"x y\"",
        "#",
        "then",
        "lasts",
        "nothing",
        "with jobs",
        "over x",
        "in every plan",
        "\u{7}",
    ];
    for case in 0..20_000 {
        let mut rng = Rng::new(9, case);
        let number = rng.from(0, 60);
        let parts: Vec<&str> = (0..number).map(|_| rng.pick(&PARTS)).collect();
        let text = format!("{}\n{}", rng.pick(&PARTS[..5]), parts.join(" "));
        if let Err(mistakes) = text::read("text", text.as_bytes(), None, &no_house) {
            assert!(!mistakes.all.is_empty() && !mistakes.to_string().is_empty());
        }
    }
}

#[test]
fn bytes_that_are_no_text_say_so() {
    let mut rng = Rng::new(5, 0);
    let noise: Vec<u8> = (0..10_000).map(|_| rng.word() as u8).collect();
    let long = vec![b'x'; text::MOST_BYTES];
    let signs = vec![b'@'; text::MOST_BYTES];
    let commas = [b"plan\ntimeline 0:", vec![b','; text::MOST_BYTES - 20].as_slice()].concat();
    let lines = [b"plan\n", "x\n".repeat(text::MOST_BYTES / 2 - 9).as_bytes()].concat();
    let too_long = vec![b'\n'; text::MOST_BYTES + 1];
    for bytes in [&noise, &long, &signs, &commas, &lines, &too_long, &Vec::new()] {
        let Err(mistakes) = text::read("text", bytes, None, &no_house) else { panic!("read") };
        assert!(mistakes.to_string().len() < 20_000);
        assert!(mistakes.all.len() <= 2 * text::mistake::MOST_MISTAKES);
    }
}
