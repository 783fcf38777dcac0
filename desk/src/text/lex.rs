//! A text cut into statements, and statements into words, numbers and signs.

use super::mistake::{Mistake, Spot, MOST_MISTAKES};
use std::iter::{Enumerate, Peekable};
use std::str::Chars;

/// Most bytes of a text: more than any book or plan needs.
pub const MOST_BYTES: usize = 2 << 20;

/// Most lines that say something: a list of events has up to 8,160.
const MOST_STATEMENTS: usize = 20_000;

#[derive(Clone, Debug, PartialEq, Eq)]
pub enum Piece {
    Word(String),
    Quoted(String),
    /// N + 1 and more stand as u64::MAX.
    Number(u64),
    /// One of `:`, `,` and `'`, the last for "'s".
    Sign(char),
}

#[derive(Clone, Debug, PartialEq, Eq)]
pub struct Lexeme {
    pub piece: Piece,
    pub spot: Spot,
}

impl Lexeme {
    /// How a message shows it.
    pub fn shown(&self) -> String {
        match &self.piece {
            Piece::Word(word) => format!("'{}'", short(word)),
            Piece::Quoted(name) => format!("\"{}\"", short(name)),
            Piece::Number(u64::MAX) => "a number that is too large".to_string(),
            Piece::Number(number) => number.to_string(),
            Piece::Sign('\'') => "'s".to_string(),
            Piece::Sign(sign) => format!("'{sign}'"),
        }
    }
}

/// At most 40 characters of a name.
pub fn short(name: &str) -> String {
    match name.char_indices().nth(40) {
        Some((cut, _)) => format!("{}..", &name[..cut]),
        None => name.to_string(),
    }
}

/// A line of the text with what belongs to it, and where it ends.
#[derive(Clone, Debug, Default, PartialEq, Eq)]
pub struct Statement {
    pub pieces: Vec<Lexeme>,
    pub end: Spot,
}

/// The text of a file, or why it is none.
pub fn decode(bytes: &[u8]) -> Result<&str, Mistake> {
    if bytes.len() > MOST_BYTES {
        let says = format!("the text is over {MOST_BYTES} bytes long; no book or plan needs that");
        return Err(Mistake::new(Spot { line: 1, column: 1 }, says));
    }
    let valid = match std::str::from_utf8(bytes) {
        Ok(text) => text,
        Err(error) => {
            let good = String::from_utf8_lossy(&bytes[..error.valid_up_to()]);
            let line = good.matches('\n').count() + 1;
            let column = good.chars().rev().take_while(|c| *c != '\n').count() + 1;
            let says = "this is no text: a byte that UTF-8 doesn't have here";
            return Err(Mistake::new(Spot { line, column }, says));
        }
    };
    Ok(valid.strip_prefix('\u{feff}').unwrap_or(valid))
}

/// The statements of a text: a line each, and the next too after a comma.
pub fn statements(text: &str, mistakes: &mut Vec<Mistake>) -> Vec<Statement> {
    let mut all = Vec::new();
    let mut open = Statement::default();
    for (number, line) in text.lines().enumerate() {
        pieces(line, number + 1, &mut open, mistakes);
        let goes_on = open.pieces.last().is_some_and(|l| l.piece == Piece::Sign(','));
        if !goes_on && !open.pieces.is_empty() {
            all.push(std::mem::take(&mut open));
        }
        if all.len() > MOST_STATEMENTS || mistakes.len() > MOST_MISTAKES {
            let spot = Spot { line: number + 1, column: 1 };
            mistakes.push(Mistake::new(spot, "the text isn't read further than this line"));
            return Vec::new();
        }
    }
    if !open.pieces.is_empty() {
        all.push(open);
    }
    all
}

pub fn is_word_char(c: char) -> bool {
    c.is_alphanumeric() || "-_./+".contains(c)
}

/// The signs of a line with their columns, counted from 0.
type Signs<'a> = Peekable<Enumerate<Chars<'a>>>;

fn pieces(line: &str, number: usize, into: &mut Statement, mistakes: &mut Vec<Mistake>) {
    let mut signs = line.chars().enumerate().peekable();
    while let Some((at, c)) = signs.next() {
        if c == '#' || mistakes.len() > MOST_MISTAKES {
            return;
        }
        if c.is_whitespace() {
            continue;
        }
        let spot = Spot { line: number, column: at + 1 };
        match piece(c, &mut signs) {
            Ok(piece) => into.pieces.push(Lexeme { piece, spot }),
            Err(says) => mistakes.push(Mistake::new(spot, says)),
        }
        let next = signs.peek().map_or_else(|| line.chars().count(), |(at, _)| *at);
        into.end = Spot { line: number, column: next + 1 };
    }
}

/// What begins with this sign.
fn piece(c: char, signs: &mut Signs) -> Result<Piece, String> {
    match c {
        ':' | ',' => Ok(Piece::Sign(c)),
        '\'' if take(signs, is_word_char) == "s" => Ok(Piece::Sign(c)),
        '"' => {
            let name = take(signs, |c| c != '"');
            let closed = signs.next().is_some();
            closed
                .then_some(Piece::Quoted(name))
                .ok_or("this quote isn't closed on its line".into())
        }
        c if is_word_char(c) => Ok(word_or_number(format!("{c}{}", take(signs, is_word_char)))),
        c => Err(format!("{} has no meaning in a text", shown(c))),
    }
}

fn take(signs: &mut Signs, keep: fn(char) -> bool) -> String {
    let mut run = String::new();
    while let Some((_, c)) = signs.next_if(|(_, c)| keep(*c)) {
        run.push(c);
    }
    run
}

fn shown(c: char) -> String {
    match c {
        '\'' => "a single quote (names stand in \"double\" ones)".to_string(),
        c if c.is_control() => format!("the control character {}", c as u32),
        c => format!("'{c}'"),
    }
}

fn word_or_number(word: String) -> Piece {
    if !word.chars().all(|c| c.is_ascii_digit()) {
        return Piece::Word(word);
    }
    match word.parse::<u32>() {
        Ok(number) => Piece::Number(number.into()),
        Err(_) => Piece::Number(u64::MAX),
    }
}
