//! A plan as a picture: the timelines over one time axis.

mod svg;
mod terminal;
mod window;

pub use svg::svg;
pub use terminal::terminal;

use crate::answer::sentence::Told;
use crate::model::House;
use crate::scene::{Scene, Stretch};

/// What is drawn.
pub struct Picture<'a> {
    pub house: &'a House,
    pub scene: &'a Scene,
    /// The judge's line, or nothing.
    pub title: String,
    pub told: &'a Told,
    /// The part of time that was asked for.
    pub from: Option<u64>,
    pub to: Option<u64>,
}

/// How a token is marked.
#[derive(Clone, Copy, PartialEq, Eq)]
enum Mark {
    Plain,
    /// An alternative looked at it.
    LookedAt,
    /// The nearest of an alternative.
    Nearest,
    Fault,
}

impl Picture<'_> {
    fn mark(&self, stretch: &Stretch) -> Mark {
        if self.told.fault.as_ref() == Some(stretch) {
            Mark::Fault
        } else if self.told.nearest.iter().any(|(_, s)| s == stretch) {
            Mark::Nearest
        } else if self.told.looked_at.contains(stretch) {
            Mark::LookedAt
        } else {
            Mark::Plain
        }
    }

    /// "nearest", with the alternatives for which it is.
    fn tag(&self, stretch: &Stretch) -> String {
        let named = self.told.nearest.iter().filter(|(_, s)| s == stretch);
        let mut numbers: Vec<String> = named.map(|(number, _)| number.to_string()).collect();
        numbers.dedup();
        match self.told.alternatives {
            1 => "nearest".to_string(),
            _ => format!("nearest for alternative {}", numbers.join(", ")),
        }
    }

    fn label(&self, stretch: &Stretch) -> String {
        let value = self.house.value(stretch.timeline, stretch.value as usize);
        let value = value.trim_matches('"');
        match stretch.job {
            0 => value.to_string(),
            job => format!("{value} #{job}"),
        }
    }

    fn line_name(&self, timeline: usize) -> String {
        self.house.timeline(timeline).trim_matches('"').to_string()
    }

    /// The tokens of a line that show between two times.
    fn visible(&self, timeline: usize, window: (u64, u64)) -> &[Stretch] {
        let line = self.scene.lines.get(timeline).map_or(&[][..], Vec::as_slice);
        // Tokens without duration show at both ends of the part.
        let is_before = |s: &Stretch| s.end < window.0 || (s.end == window.0 && s.start < s.end);
        let is_in = |s: &Stretch| s.start < window.1 || (s.start == window.1 && s.start == s.end);
        let first = line.partition_point(is_before);
        let last = line.partition_point(is_in);
        line.get(first..last).unwrap_or(&[])
    }
}

/// A step of 1, 2 or 5 times a power of ten that parts a span into at most `most`.
fn tick_step(span: u64, most: u64) -> u64 {
    let mut step = 1u64;
    let mut factors = [2, 5, 10].iter().cycle();
    let mut unit = 1u64;
    while span / step > most {
        let factor = factors.next().copied().unwrap_or(10);
        step = unit.saturating_mul(factor);
        if factor == 10 {
            unit = step;
        }
    }
    step
}

/// Columns that a text takes; signs of East Asian scripts take two.
fn columns(text: &str) -> usize {
    text.chars().map(|c| if (c as u32) < 0x1100 { 1 } else { 2 }).sum()
}

/// The start of a text, of so many columns.
fn cut(text: &str, most: usize) -> String {
    if columns(text) <= most {
        return text.to_string();
    }
    let mut out = String::new();
    for c in text.chars() {
        if columns(&out) + columns(&c.to_string()) + 1 > most {
            break;
        }
        out.push(c);
    }
    if most > 1 {
        out.push('~');
    }
    out
}
