//! Words to text to the same words, and text of a text to the same text.

use crate::model::{House, Kind, Rules};
use crate::text::{self, write, NoHouse, Text};
use crate::trial::generate::{self, Rng, Size, LARGE, SMALL};
use crate::{decode, encode};

const SEED: u64 = 17;

fn no_house(_: &str) -> Result<House, NoHouse> {
    Err(NoHouse::Message("no file here".to_string()))
}

pub fn read(text: &str, house: Option<&House>) -> Text {
    match text::read("text", text.as_bytes(), house, &no_house) {
        Ok(read) => read,
        Err(mistakes) => panic!("{mistakes}\n{text}"),
    }
}

fn rules(case: u64, kind: Kind, size: Size) {
    let mut rng = Rng::new(SEED, case);
    let named = rng.percent(50);
    let house = generate::house(&mut rng, size, named);
    let words = encode::rules(&generate::rules(&mut rng, kind, house.clone(), size));
    let decoded = decode::rules(&words).unwrap_or_else(|| panic!("case {case}: {words:?}"));
    let shown = write::rules(&Rules { house: house.clone(), ..decoded });
    let Text::Rules(again) = read(&shown, None) else { panic!("case {case}\n{shown}") };
    assert_eq!(encode::rules(&again), words, "case {case}\n{shown}");
    assert_eq!(write::rules(&again), shown, "case {case}");
    let shown = write::house(&house);
    assert_eq!(read(&shown, None), Text::House(house), "case {case}\n{shown}");
}

fn plan(case: u64, size: Size) {
    let mut rng = Rng::new(SEED, case);
    let house = generate::house(&mut rng, size, true);
    let plan = generate::plan(&mut rng, &house, size);
    let words = encode::plan(&plan);
    let decoded = decode::plan(&words).unwrap_or_else(|| panic!("case {case}: {words:?}"));
    // With the house's names, and with numbers alone.
    for (names, given) in [(house.clone(), Some(&house)), (House::default(), None)] {
        let shown = write::plan(&decoded, &names, None);
        let Text::Plan(again, _) = read(&shown, given) else { panic!("case {case}\n{shown}") };
        assert_eq!(encode::plan(&again), words, "case {case}\n{shown}");
        assert_eq!(write::plan(&again, &names, None), shown, "case {case}");
    }
    let words = encode::events(&generate::events(&plan));
    let list = decode::events(&words).unwrap_or_else(|| panic!("case {case}: {words:?}"));
    let shown = write::events(&list, &house, None);
    let Text::Events(again, _) = read(&shown, Some(&house)) else { panic!("case {case}") };
    assert_eq!(encode::events(&again), words, "case {case}\n{shown}");
}

#[test]
fn books() {
    (0..40_000).for_each(|case| rules(case, Kind::Book, SMALL));
    (0..100).for_each(|case| rules(case, Kind::Book, LARGE));
}

#[test]
fn sheets() {
    (0..40_000).for_each(|case| rules(case, Kind::Sheet, SMALL));
    (0..100).for_each(|case| rules(case, Kind::Sheet, LARGE));
}

#[test]
fn plans_of_both_editions_and_their_events() {
    (0..40_000).for_each(|case| plan(case, SMALL));
    (0..100).for_each(|case| plan(case, LARGE));
}
