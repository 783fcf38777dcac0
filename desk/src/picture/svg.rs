//! The picture as SVG, 1,200 wide, to be read in a browser and on A4 across.

use super::{columns, cut, tick_step, Mark, Picture};
use crate::scene::Stretch;
use std::fmt::Write;

const WIDTH: f64 = 1200.0;
const MARGIN: f64 = 24.0;
/// A token's height, and the room below a line without and with marks.
const ROW: f64 = 34.0;
const GAP: f64 = 9.0;
const BELOW: f64 = 22.0;
/// Width of a letter, by its size.
const LETTER: f64 = 0.6;
/// Tokens of a line that can be read beside each other.
const MOST_TOKENS: usize = 14;

const RED: &str = "#b3261e";
const BLUE: &str = "#1d4f91";
const GREY: &str = "#5f6368";
/// Fills by timeline and value; light, so that names can be read in print too.
const FILLS: [&str; 8] =
    ["#dfe7f1", "#f7e3bd", "#d9ead3", "#ead9ec", "#d3ebec", "#f3dcd3", "#e8e6c8", "#e3e3e3"];

struct Sheet<'a> {
    picture: &'a Picture<'a>,
    from: u64,
    to: u64,
    left: f64,
    top: f64,
    out: String,
}

pub fn svg(picture: &Picture) -> String {
    let (from, to) = picture.window(MOST_TOKENS);
    let lines = picture.scene.lines.len();
    let names = (0..lines).map(|line| columns(&picture.line_name(line))).max().unwrap_or(0);
    let left = MARGIN + (names.clamp(5, 24) as f64) * 14.0 * LETTER + 16.0;
    let mut sheet = Sheet { picture, from, to, left, top: MARGIN, out: String::new() };
    sheet.heading();
    sheet.overview();
    sheet.axis();
    let top = sheet.top;
    for line in 0..lines {
        sheet.line(line);
    }
    sheet.guides(top);
    sheet.legend();
    sheet.finished()
}

/// A text with the signs that SVG needs otherwise.
fn escaped(text: &str) -> String {
    let mut out = String::new();
    for c in text.chars() {
        match c {
            '&' => out += "&amp;",
            '<' => out += "&lt;",
            '>' => out += "&gt;",
            '"' => out += "&quot;",
            c if c.is_control() => out.push(' '),
            c => out.push(c),
        }
    }
    out
}

/// Lines of at most so many columns, broken between words.
fn wrapped(text: &str, most: usize) -> Vec<String> {
    let mut lines = vec![String::new()];
    for word in text.split(' ') {
        let open = lines.last().map_or(0, |l| columns(l));
        if open > 0 && open + 1 + columns(word) > most {
            lines.push(String::new());
        }
        if let Some(line) = lines.last_mut() {
            if !line.is_empty() {
                line.push(' ');
            }
            line.push_str(&cut(word, most));
        }
    }
    lines
}

impl Sheet<'_> {
    fn put(&mut self, part: std::fmt::Arguments) {
        // Writing to a String can't fail.
        let _ = self.out.write_fmt(part);
        self.out.push('\n');
    }

    fn text(&mut self, (x, y): (f64, f64), size: u32, style: &str, text: &str) {
        let text = escaped(text);
        self.put(format_args!(
            "<text x=\"{x:.1}\" y=\"{y:.1}\" font-size=\"{size}\" {style}>{text}</text>"
        ));
    }

    fn x(&self, time: u64) -> f64 {
        let time = time.clamp(self.from, self.to) - self.from;
        let width = WIDTH - MARGIN - self.left;
        self.left + width * (time as f64) / ((self.to - self.from) as f64)
    }

    /// The room that a line takes.
    fn height(&self, line: usize) -> f64 {
        let picture = self.picture;
        let mut visible = picture.visible(line, (self.from, self.to)).iter();
        let elsewhere = picture.told.nearest.iter().any(|(_, s)| s.timeline == line);
        let marked = elsewhere || visible.any(|s| picture.mark(s) != Mark::Plain);
        ROW + if marked { BELOW } else { GAP }
    }

    /// Where the lines end below.
    fn bottom(&self) -> f64 {
        let lines = 0..self.picture.scene.lines.len();
        self.top + lines.map(|line| self.height(line)).sum::<f64>()
    }

    fn heading(&mut self) {
        let picture = self.picture;
        let title = picture.title.as_str();
        if !title.is_empty() {
            self.text((MARGIN, self.top + 16.0), 20, "font-weight=\"bold\"", title);
            self.top += 30.0;
        }
        let most = ((WIDTH - 2.0 * MARGIN) / (15.0 * LETTER * 0.9)) as usize;
        for line in picture.told.lines.iter().flat_map(|line| wrapped(line, most)) {
            self.text((MARGIN, self.top + 12.0), 15, "", &line);
            self.top += 22.0;
        }
        if self.top > MARGIN {
            self.top += 10.0;
        }
    }

    /// Where the part that is drawn stands in the whole plan.
    fn overview(&mut self) {
        let end = self.picture.scene.end.max(1);
        if (self.from, self.to) == (0, end) {
            return;
        }
        let width = WIDTH - MARGIN - self.left;
        let x = |time: u64| self.left + width * (time as f64) / (end as f64);
        let (from, to, y, left) =
            (x(self.from), x(self.to).min(WIDTH - MARGIN), self.top, self.left);
        let shown = (to - from).max(3.0);
        self.text((MARGIN, y + 11.0), 14, "", "all");
        self.put(format_args!(
            "<rect x=\"{left:.1}\" y=\"{y:.1}\" width=\"{width:.1}\" height=\"12\" fill=\"#e3e3e3\"/>"
        ));
        self.put(format_args!(
            "<rect x=\"{from:.1}\" y=\"{:.1}\" width=\"{shown:.1}\" height=\"18\" fill=\"none\" \
             stroke=\"{RED}\" stroke-width=\"2\"/>",
            y - 3.0
        ));
        let told = format!("{} to {} of 0 to {end}", self.from, self.to);
        let style = format!("text-anchor=\"end\" fill=\"{GREY}\"");
        self.text((WIDTH - MARGIN, y + 28.0), 13, &style, &told);
        self.top += 46.0;
    }

    fn axis(&mut self) {
        let label = columns(&self.to.to_string()) as f64 * 13.0 * LETTER + 24.0;
        let most = ((WIDTH - MARGIN - self.left) / label).clamp(1.0, 12.0);
        let step = tick_step(self.to - self.from, most as u64);
        let (bottom, y) = (self.bottom() + 18.0, self.top + 12.0);
        let mut time = self.from.div_ceil(step) * step;
        while time <= self.to {
            let x = self.x(time);
            self.put(format_args!(
                "<line x1=\"{x:.1}\" y1=\"{:.1}\" x2=\"{x:.1}\" y2=\"{:.1}\" stroke=\"#e3e3e3\"/>",
                y + 6.0,
                bottom
            ));
            let style = format!("text-anchor=\"middle\" fill=\"{GREY}\"");
            let label = time.to_string();
            let half = columns(&label) as f64 * 13.0 * LETTER / 2.0;
            self.text((x.min(WIDTH - 4.0 - half), y), 13, &style, &label);
            time += step;
        }
        self.top += 24.0;
    }

    /// Two lines from top to bottom where the fault starts and ends.
    fn guides(&mut self, top: f64) {
        let Some(fault) = self.picture.told.fault else { return };
        let (top, bottom) = (top - 6.0, self.top - 4.0);
        for time in [fault.start, fault.end] {
            if (self.from..=self.to).contains(&time) {
                let x = self.x(time);
                self.put(format_args!(
                    "<line x1=\"{x:.1}\" y1=\"{top:.1}\" x2=\"{x:.1}\" y2=\"{bottom:.1}\" \
                     stroke=\"{RED}\" stroke-opacity=\"0.6\" stroke-dasharray=\"4 4\"/>"
                ));
            }
        }
    }

    fn line(&mut self, line: usize) {
        let picture = self.picture;
        let name = cut(&picture.line_name(line), 24);
        self.text((MARGIN, self.top + 22.0), 14, "font-weight=\"bold\"", &name);
        let tokens = picture.visible(line, (self.from, self.to));
        if tokens.is_empty() {
            let style = format!("fill=\"{GREY}\" font-style=\"italic\"");
            self.text((self.left + 4.0, self.top + 22.0), 14, &style, "nothing");
        }
        // Marked ones last, so that their borders stay whole.
        let marked = |s: &&Stretch| matches!(picture.mark(s), Mark::Nearest | Mark::Fault);
        for token in tokens.iter().filter(|s| !marked(s)).chain(tokens.iter().filter(marked)) {
            self.token(token);
        }
        self.elsewhere(line);
        self.top += self.height(line);
    }

    fn token(&mut self, token: &Stretch) {
        let mark = self.picture.mark(token);
        let (x, end, y) = (self.x(token.start), self.x(token.end), self.top);
        let width = (end - x).max(1.5);
        let fill = FILLS[(token.value as usize % 8 + 3 * token.timeline) % FILLS.len()];
        let border = match mark {
            Mark::Plain | Mark::LookedAt if width < 5.0 => String::new(),
            Mark::Plain | Mark::LookedAt => "stroke=\"#ffffff\" stroke-width=\"1\"".to_string(),
            Mark::Nearest => {
                format!("stroke=\"{BLUE}\" stroke-width=\"2.5\" stroke-dasharray=\"7 4\"")
            }
            Mark::Fault => format!("stroke=\"{RED}\" stroke-width=\"3.5\""),
        };
        self.put(format_args!(
            "<rect x=\"{x:.1}\" y=\"{y:.1}\" width=\"{width:.1}\" height=\"{ROW}\" fill=\"{fill}\" \
             {border}/>"
        ));
        if mark == Mark::LookedAt {
            self.put(format_args!(
                "<rect x=\"{:.1}\" y=\"{:.1}\" width=\"{:.1}\" height=\"3\" fill=\"{BLUE}\"/>",
                x + 1.0,
                y + ROW + 2.0,
                (width - 2.0).max(1.0)
            ));
        }
        self.label(token, mark, (x, y), width);
    }

    /// Name and times inside, as far as there is room; below, how it is marked.
    fn label(&mut self, token: &Stretch, mark: Mark, (x, y): (f64, f64), width: f64) {
        let room = |size: f64| ((width - 8.0).max(0.0) / (size * LETTER)) as usize;
        let middle = x + width / 2.0;
        let centred = "text-anchor=\"middle\"";
        let times = format!("{} to {}", token.start, token.end);
        let name = self.picture.label(token);
        let bold = if mark == Mark::Fault { "font-weight=\"bold\"" } else { "" };
        let both = columns(&times) <= room(11.0) && columns(&name) <= room(13.0);
        let name = cut(&name, room(13.0));
        if both {
            let style = format!("{centred} fill=\"{GREY}\"");
            self.text((middle, y + 28.0), 11, &style, &times);
        }
        if !name.is_empty() && name != "~" {
            let down = if both { 15.0 } else { 22.0 };
            self.text((middle, y + down), 13, &format!("{centred} {bold}"), &name);
        }
        let (tag, colour) = match mark {
            Mark::Plain | Mark::LookedAt => return,
            Mark::Nearest => (self.picture.tag(token), BLUE),
            Mark::Fault => ("refused".to_string(), RED),
        };
        let tag = if both { tag } else { format!("{tag}: {times}") };
        let half = columns(&tag) as f64 * 12.0 * LETTER / 2.0;
        let at = middle.clamp(self.left + half, (WIDTH - MARGIN - half).max(self.left + half));
        let style = format!("{centred} fill=\"{colour}\" font-weight=\"bold\"");
        self.text((at, y + ROW + 14.0), 12, &style, &tag);
    }

    /// Arrows to the nearest tokens that are outside the part drawn.
    fn elsewhere(&mut self, line: usize) {
        let picture = self.picture;
        let own = picture.told.nearest.iter().map(|(_, s)| s).filter(|s| s.timeline == line);
        let before = own.clone().filter(|s| s.end <= self.from).max_by_key(|s| s.end);
        let after = own.filter(|s| s.start >= self.to).min_by_key(|s| s.start);
        let y = self.top + ROW + 14.0;
        let style = format!("fill=\"{BLUE}\" font-weight=\"bold\"");
        if let Some(s) = before {
            let says = format!("<< {}: {} to {}", picture.tag(s), s.start, s.end);
            self.text((self.left, y), 12, &style, &says);
        }
        if let Some(s) = after {
            let says = format!("{}: {} to {} >>", picture.tag(s), s.start, s.end);
            let style = format!("{style} text-anchor=\"end\"");
            self.text((WIDTH - MARGIN, y), 12, &style, &says);
        }
    }

    fn legend(&mut self) {
        let told = self.picture.told;
        let plain = |s: &Stretch| self.picture.mark(s) == Mark::LookedAt;
        let parts = [
            (told.fault.is_some(), Mark::Fault, "the token that is refused"),
            (!told.nearest.is_empty(), Mark::Nearest, "the nearest that an alternative found"),
            (told.looked_at.iter().any(plain), Mark::LookedAt, "looked at by an alternative"),
        ];
        let mut x = self.left;
        let y = self.top + 8.0;
        for (_, mark, says) in parts.into_iter().filter(|(shown, _, _)| *shown) {
            let sample = match mark {
                Mark::Fault => {
                    format!("height=\"12\" fill=\"none\" stroke=\"{RED}\" stroke-width=\"3\"")
                }
                Mark::Nearest => format!(
                    "height=\"12\" fill=\"none\" stroke=\"{BLUE}\" stroke-width=\"2\" \
                     stroke-dasharray=\"5 3\""
                ),
                Mark::Plain | Mark::LookedAt => format!("height=\"3\" fill=\"{BLUE}\""),
            };
            let down = if mark == Mark::LookedAt { 5.0 } else { 0.0 };
            self.put(format_args!(
                "<rect x=\"{x:.1}\" y=\"{:.1}\" width=\"26\" {sample}/>",
                y + down
            ));
            self.text((x + 34.0, y + 11.0), 13, "", says);
            x += 34.0 + columns(says) as f64 * 13.0 * LETTER + 30.0;
        }
        if x > self.left {
            self.top += 26.0;
        }
    }

    fn finished(self) -> String {
        let height = self.top + MARGIN;
        format!(
            "<svg xmlns=\"http://www.w3.org/2000/svg\" width=\"{WIDTH}\" height=\"{height:.0}\" \
             viewBox=\"0 0 {WIDTH} {height:.0}\" font-family=\"Helvetica, Arial, sans-serif\" \
             fill=\"#202124\">\n\
             <rect width=\"100%\" height=\"100%\" fill=\"#ffffff\"/>\n{}</svg>\n",
            self.out
        )
    }
}
