//! The picture in letters, for a terminal of 100 columns.

use super::{columns, cut, tick_step, Mark, Picture};
use crate::scene::Stretch;

const WIDTH: usize = 100;
/// Tokens of a line that can be read beside each other.
const MOST_TOKENS: usize = 12;

/// Time along the columns behind the names.
struct Scale {
    from: u64,
    to: u64,
    columns: usize,
}

impl Scale {
    fn column(&self, time: u64) -> usize {
        let time = u128::from(time.clamp(self.from, self.to) - self.from);
        (time * self.columns as u128 / u128::from(self.to - self.from)) as usize
    }
}

pub fn terminal(picture: &Picture) -> String {
    let (from, to) = picture.window(MOST_TOKENS);
    let names = (0..picture.scene.lines.len()).map(|line| columns(&picture.line_name(line)));
    let names = names.max().unwrap_or(0).clamp(4, 24);
    let scale = Scale { from, to, columns: WIDTH - names - 3 };
    let mut out = axis(&scale, names);
    for line in 0..picture.scene.lines.len() {
        let tokens = picture.visible(line, (from, to));
        out += &row(picture, &scale, names, line, tokens);
        out += &marks(picture, &scale, names, tokens);
    }
    if (from, to) != (0, picture.scene.end.max(1)) {
        out += &format!("{from} to {to} of 0 to {}\n", picture.scene.end);
    }
    out
}

fn axis(scale: &Scale, names: usize) -> String {
    let step = tick_step(scale.to - scale.from, (scale.columns / 12) as u64);
    let mut line = " ".repeat(names + 2);
    let mut time = scale.from.div_ceil(step) * step;
    while time <= scale.to {
        let label = time.to_string();
        let at = (names + 2 + scale.column(time)).min(WIDTH - label.len());
        if line.len() < at || time == scale.from {
            line = format!("{line:at$}{label}");
        }
        time += step;
    }
    line + "\n"
}

/// A line of tokens: "decoder  |latin1   |utf8          |".
fn row(picture: &Picture, scale: &Scale, names: usize, line: usize, tokens: &[Stretch]) -> String {
    let name = cut(&picture.line_name(line), names);
    let mut out = format!("{name}{}", " ".repeat(names + 2 - columns(&name)));
    let start = columns(&out);
    for token in tokens {
        let (from, to) = (start + scale.column(token.start), start + scale.column(token.end));
        out += &" ".repeat(from.saturating_sub(columns(&out)));
        let room = to.saturating_sub(columns(&out));
        if room == 0 {
            continue;
        }
        let label = cut(&picture.label(token), room - 1);
        out += &format!("|{label}");
        out += &".".repeat(to.saturating_sub(columns(&out)));
    }
    match tokens.last() {
        None => out + "(nothing)\n",
        Some(last) if last.end <= scale.to => out + "|\n",
        Some(_) => out + "\n",
    }
}

/// Under a line: carets for the fault, dashes for the nearest tokens. Each stands
/// on the first line that has room for it.
fn marks(picture: &Picture, scale: &Scale, names: usize, tokens: &[Stretch]) -> String {
    let mut lines: Vec<String> = Vec::new();
    for token in tokens {
        let (sign, tag) = match picture.mark(token) {
            Mark::Fault => ("^", "refused".to_string()),
            Mark::Nearest => ("-", picture.tag(token)),
            Mark::Plain | Mark::LookedAt => continue,
        };
        let from = names + 2 + scale.column(token.start);
        let run = (names + 2 + scale.column(token.end)).saturating_sub(from).max(1);
        let tag = format!("{tag}, {} to {}", token.start, token.end);
        let (at, marked) = one_mark(sign, &tag, from, run);
        let free = lines.iter().position(|line| line.len() < at).unwrap_or(lines.len());
        if free == lines.len() {
            lines.push(String::new());
        }
        lines[free] = format!("{:at$}{marked}", lines[free]);
    }
    lines.iter().map(|line| format!("{line}\n")).collect()
}

/// The signs with what they say: among them, behind them, or before them where
/// the line ends; and the column where that begins.
fn one_mark(sign: &str, tag: &str, from: usize, run: usize) -> (usize, String) {
    if run >= tag.len() + 6 {
        let rest = sign.repeat(run - tag.len() - 4);
        return (from, format!("{}{} {tag} {rest}", sign, sign));
    }
    let signs = sign.repeat(run);
    if from + run + 1 + tag.len() > WIDTH && tag.len() < from {
        return (from - tag.len() - 1, format!("{tag} {signs}"));
    }
    (from, format!("{signs} {tag}"))
}
