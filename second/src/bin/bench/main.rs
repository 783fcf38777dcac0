//! Measures the proved library against the second judge, on the same bytes.
//! bench [--quick] [rows], as `bench d f`; without rows all of them.
//!
//! Where lines get longer row by row, each of the two is left out once it would
//! take too long; with --quick that is soon.

mod measure;
#[path = "../../proved/mod.rs"]
mod proved;

use measure::{hold_memory, judged, ordered, translated, Asked, Timed};
use second::generate::slow::{Slow, BOTH, SHEETS};
use second::generate::{jobs, load};
use second::layout::Kind;
use std::time::Instant;

/// The longest call in nanoseconds that one of the two may be expected to take
/// in a growing series.
const PATIENCE: f64 = 1e10;
const QUICK: f64 = 4e8;
/// How much longer a line of twice the length may take, before it is seen: all
/// choices of four names, for twice as many trigger tokens.
const GROWTH: f64 = 32.0;

const LENGTHS: [usize; 6] = [16, 32, 64, 128, 256, 512];

struct Bench {
    quick: bool,
    rows: Vec<String>,
    /// Row a's time of the proved library, to measure the others by.
    least: f64,
}

/// A number with a unit, or a dash for what wasn't asked.
fn time(nanos: Option<f64>) -> String {
    match nanos {
        None => "-".to_string(),
        Some(n) if n < 1e4 => format!("{n:.0} ns"),
        Some(n) if n < 1e7 => format!("{:.1} us", n / 1e3),
        Some(n) if n < 1e10 => format!("{:.1} ms", n / 1e6),
        Some(n) => format!("{:.1} s", n / 1e9),
    }
}

/// One number over another, or a dash.
fn over(number: Option<f64>, other: Option<f64>) -> String {
    match (number, other) {
        (Some(n), Some(o)) => format!("{:.2}", n / o),
        _ => "-".to_string(),
    }
}

impl Bench {
    fn wanted(&self, row: &str) -> bool {
        self.rows.is_empty() || self.rows.iter().any(|r| r == row)
    }

    fn head(&self, title: &str) {
        println!("\n{title}");
        println!(
            "{:<24}{:>12}{:>12}{:>8}{:>10}  {:<14}growth proved, second",
            "", "proved", "second", "ratio", "of row a", "answer"
        );
    }

    fn print(&self, name: &str, timed: &Timed, before: Option<&Timed>) {
        let [number, a, b, c] = timed.answer;
        print!(
            "{name:<24}{:>12}{:>12}{:>8}{:>10}  {:<14}",
            time(timed.proved),
            time(timed.second),
            over(timed.proved, timed.second),
            over(timed.proved, Some(self.least)),
            format!("{number} {a} {b} {c}")
        );
        match before {
            Some(b) => {
                println!("{}, {}", over(timed.proved, b.proved), over(timed.second, b.second))
            }
            None => println!(),
        }
    }

    /// Whether a time that grew so far may grow once more.
    fn can(&self, times: &[Option<f64>]) -> bool {
        let patience = if self.quick { QUICK } else { PATIENCE };
        match times {
            [.., Some(before), Some(last)] => last * (last / before).max(2.0) < patience,
            [Some(last)] => last * GROWTH < patience,
            _ => times.is_empty(),
        }
    }

    /// The same on lines of 16 to 512 tokens.
    fn series(&self, title: &str, kind: Kind, make: impl Fn(usize) -> (Vec<u32>, Vec<u32>)) {
        self.over_lengths(title, kind, &LENGTHS, make);
    }

    fn over_lengths(
        &self,
        title: &str,
        kind: Kind,
        lengths: &[usize],
        make: impl Fn(usize) -> (Vec<u32>, Vec<u32>),
    ) {
        self.head(title);
        let mut seen: Vec<Timed> = Vec::new();
        for &tokens in lengths {
            let times = |of: fn(&Timed) -> Option<f64>| seen.iter().map(of).collect::<Vec<_>>();
            let asked = Asked {
                proved: self.can(&times(|t| t.proved)),
                second: self.can(&times(|t| t.second)),
            };
            if !asked.proved && !asked.second {
                println!("longer lines are left out");
                return;
            }
            let timed = judged(asked, kind, &make(tokens));
            self.print(&format!("lines of {tokens}"), &timed, seen.last());
            seen.push(timed);
        }
    }

    fn slow(&self, row: &str, kind: Kind, all: &[Slow]) {
        for one in all {
            self.series(&format!("{row}. {}", one.name), kind, |tokens| (one.make)(kind, tokens));
        }
    }

    fn first_rows(&mut self) {
        let largest = (load::largest_book(), load::largest_plan());
        let timed = judged(Asked::BOTH, Kind::Book, &largest);
        self.least = timed.proved.expect("asked");
        self.head("a. largest book and plan, no trigger in the plan");
        let words = format!("{} and {} words", largest.0.len(), largest.1.len());
        self.print(&words, &timed, None);
        if self.wanted("b") {
            self.head("b. 64 rules over 15 lines of 512, two alternatives of one name");
            let timed = judged(Asked::BOTH, Kind::Book, &load::one_name());
            self.print("16,384 triggers", &timed, None);
        }
        if self.wanted("c") {
            self.head("c. one rule over lines of 512, two names");
            let timed = judged(Asked::BOTH, Kind::Book, &load::two_names());
            self.print("256 triggers", &timed, None);
        }
    }

    fn names(&self) {
        for chained in [false, true] {
            let what = match chained {
                false => "every choice fails at the last name",
                true => "each after the one before, none holds",
            };
            for names in [3, 4] {
                self.series(&format!("d. {names} names, {what}"), Kind::Book, |tokens| {
                    load::names(names, tokens, chained)
                });
            }
        }
    }

    /// The same input by order and by the main judge.
    fn by_order(&self, title: &str, input: &(Vec<u32>, Vec<u32>)) {
        self.head(title);
        let (by_order, main) = (ordered(input), judged(Asked::BOTH, Kind::Book, input));
        self.print("by order", &by_order, None);
        self.print("main judge", &main, None);
        let ratios = [over(by_order.proved, main.proved), over(by_order.second, main.second)];
        println!("by order to main judge: proved {}, second {}", ratios[0], ratios[1]);
    }

    fn all(&mut self) {
        self.first_rows();
        if self.wanted("d") {
            self.names();
        }
        if self.wanted("e") {
            self.head("e. translating the sheet with the largest book");
            let sheet = load::largest_sheet();
            self.print(&format!("{} words", sheet.len()), &translated(&sheet), None);
        }
        if self.wanted("f") {
            self.slow("f", Kind::Book, &BOTH);
        }
        if self.wanted("g") {
            self.slow("g", Kind::Sheet, &BOTH);
            self.slow("g", Kind::Sheet, &SHEETS);
        }
        for (row, one) in jobs::SLOW.iter().filter(|(row, _)| self.wanted(row)) {
            let title = format!("{row}. {}", one.name);
            self.over_lengths(&title, Kind::Book, &LENGTHS[2..], |n| (one.make)(Kind::Book, n));
        }
        if self.wanted("k") {
            let largest = (load::largest_order_book(), load::staggered_plan());
            self.by_order("k. largest book and plan, as many ranks as there can be", &largest);
            let rules = load::one_name_by_order();
            self.by_order("k. 64 rules over 15 lines of 512, 16,384 triggers", &rules);
        }
    }
}

fn main() {
    let begun = Instant::now();
    let _stays = hold_memory();
    let (flags, rows): (Vec<String>, Vec<String>) =
        std::env::args().skip(1).partition(|word| word.starts_with('-'));
    if flags.iter().any(|flag| flag != "--quick") {
        eprintln!("usage: bench [--quick] [rows]");
        std::process::exit(2);
    }
    println!("{} against the second judge, best of several, in turn", proved::NAME);
    Bench { quick: !flags.is_empty(), rows, least: 0.0 }.all();
    println!("\n{:.1} s in all", begun.elapsed().as_secs_f64());
}
