//! Compares the proved library with the second judge.
//!
//! compare [part] [cases [seed [first case]]]: with a part's name only that
//! part is run; with a first case only the random cases from there on, and no
//! answer has to occur.

mod both;
mod cases;
mod desks;
mod events;
mod jobs;
mod order;
mod part;
mod plan_end;
#[path = "../../proved/mod.rs"]
mod proved;
mod removal;
mod tally;

use both::Both;
use part::{Done, Part};
use std::process::exit;
use std::time::Instant;
use tally::Door;

const PARTS: &[&Part] = &[
    &cases::BASE,
    &plan_end::PART,
    &jobs::PART,
    &desks::PART,
    &removal::PART,
    &order::PART,
    &events::PART,
];
const SEED: u64 = 20_250_101;

fn usage() -> ! {
    let names: Vec<&str> = PARTS.iter().map(|part| part.name).collect();
    println!("usage: compare [part] [cases [seed [first case]]]");
    println!("parts: {}", names.join(", "));
    exit(2)
}

/// The parts to run, and the numbers behind them.
fn asked() -> (Vec<&'static Part>, Vec<u64>) {
    let mut words: Vec<String> = std::env::args().skip(1).collect();
    let named = words.first().is_some_and(|word| word.parse::<u64>().is_err());
    let parts = match named.then(|| words.remove(0)) {
        None => PARTS.to_vec(),
        Some(name) => PARTS.iter().copied().filter(|part| part.name == name).collect(),
    };
    let numbers: Option<Vec<u64>> = words.iter().map(|word| word.parse().ok()).collect();
    match numbers {
        Some(numbers) if !parts.is_empty() => (parts, numbers),
        _ => usage(),
    }
}

fn main() {
    let (parts, numbers) = asked();
    let cases = numbers.first().copied();
    let seed = numbers.get(1).copied().unwrap_or(SEED);
    let first = numbers.get(2).copied();

    let begun = Instant::now();
    let mut both = Both::default();
    let mut all = Done::default();
    println!("{} against the second judge, seed {seed}", proved::NAME);
    for part in &parts {
        let done = part.run(&mut both, cases, seed, first);
        all.specimens += done.specimens;
        all.cases += done.cases;
    }

    let doors: Vec<&Door> = parts.iter().flat_map(|part| part.doors.iter().copied()).collect();
    both.tally.print(&doors);
    let missing = both.tally.missing(&doors);
    let seconds = begun.elapsed().as_secs_f64();
    println!(
        "{} specimens, {} cases, {} answers compared, no difference, {seconds:.1} s",
        all.specimens, all.cases, both.asked
    );
    if first.is_none() && !missing.is_empty() {
        println!("NEVER GIVEN: {}", missing.join(", "));
        exit(1);
    }
}
