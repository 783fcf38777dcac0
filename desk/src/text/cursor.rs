//! Goes through one statement and says what it expected.

use super::lex::{short, Lexeme, Piece, Statement};
use super::mistake::{Mistake, Spot};
use super::name::{is_reserved, MOST_LETTERS};
use std::ops::RangeInclusive;

pub struct Cursor<'a> {
    statement: &'a Statement,
    at: usize,
}

pub type Read<T> = Result<T, Mistake>;

/// A name or a number that stands for one ("value 3").
#[derive(Clone, Debug, PartialEq, Eq)]
pub enum Name {
    Said(String),
    Number(u32),
}

impl<'a> Cursor<'a> {
    pub fn new(statement: &'a Statement) -> Cursor<'a> {
        Cursor { statement, at: 0 }
    }

    fn next(&self) -> Option<&'a Lexeme> {
        self.statement.pieces.get(self.at)
    }

    pub fn spot(&self) -> Spot {
        self.next().map_or(self.statement.end, |l| l.spot)
    }

    pub fn done(&self) -> bool {
        self.next().is_none()
    }

    /// A mistake at this place.
    pub fn expected<T>(&self, what: &str) -> Read<T> {
        let found = self.next().map_or("the end of the line".to_string(), Lexeme::shown);
        Err(Mistake::new(self.spot(), format!("expected {what}, found {found}")))
    }

    pub fn sees(&self, word: &str) -> bool {
        matches!(self.next(), Some(Lexeme { piece: Piece::Word(w), .. }) if w.eq_ignore_ascii_case(word))
    }

    pub fn sees_reserved(&self) -> bool {
        matches!(self.next(), Some(Lexeme { piece: Piece::Word(w), .. }) if is_reserved(w))
    }

    pub fn sees_number(&self) -> bool {
        matches!(self.next(), Some(Lexeme { piece: Piece::Number(_), .. }))
    }

    pub fn sees_sign(&self, sign: char) -> bool {
        matches!(self.next(), Some(Lexeme { piece: Piece::Sign(s), .. }) if *s == sign)
    }

    /// Goes over these words if all of them stand here.
    pub fn eat(&mut self, words: &str) -> bool {
        let from = self.at;
        for word in words.split(' ') {
            if !self.sees(word) {
                self.at = from;
                return false;
            }
            self.at += 1;
        }
        true
    }

    pub fn eat_sign(&mut self, sign: char) -> bool {
        let seen = self.sees_sign(sign);
        self.at += usize::from(seen);
        seen
    }

    /// Goes on behind the next comma, if there is one.
    pub fn skip_past_comma(&mut self) -> bool {
        while !self.done() {
            self.at += 1;
            if self.statement.pieces[self.at - 1].piece == Piece::Sign(',') {
                return true;
            }
        }
        false
    }

    pub fn expect(&mut self, words: &str) -> Read<()> {
        match self.eat(words) {
            true => Ok(()),
            false => self.expected(&format!("'{words}'")),
        }
    }

    pub fn finish(&self) -> Read<()> {
        match self.done() {
            true => Ok(()),
            false => self.expected("the end of the line"),
        }
    }

    pub fn number(&mut self, what: &str, range: RangeInclusive<u32>) -> Read<u32> {
        let Some(Lexeme { piece: Piece::Number(number), spot }) = self.next() else {
            return self.expected(what);
        };
        let (low, high) = (range.start(), range.end());
        match u32::try_from(*number) {
            Ok(number) if range.contains(&number) => {
                self.at += 1;
                Ok(number)
            }
            _ if low > high => {
                Err(Mistake::new(*spot, format!("no number can stand here as {what}")))
            }
            _ => {
                let says = format!("{what} is {low} to {high}, found {}", self.shown());
                Err(Mistake::new(*spot, says))
            }
        }
    }

    fn shown(&self) -> String {
        self.next().map_or(String::new(), Lexeme::shown)
    }

    /// A title or a file name: in quotes, or one bare word.
    pub fn quoted_or_word(&mut self, what: &str) -> Read<String> {
        match self.next().map(|l| &l.piece) {
            Some(Piece::Quoted(name) | Piece::Word(name)) if !name.is_empty() => {
                self.at += 1;
                Ok(name.clone())
            }
            _ => self.expected(what),
        }
    }

    pub fn quoted(&mut self) -> Option<String> {
        let Some(Lexeme { piece: Piece::Quoted(name), .. }) = self.next() else { return None };
        self.at += 1;
        Some(name.clone())
    }

    /// A name that stands for itself: bare if no word of the language, or in quotes.
    pub fn plain_name(&mut self, what: &str) -> Read<String> {
        let (name, spot) = match self.next() {
            Some(Lexeme { piece: Piece::Quoted(name), spot }) => (name, *spot),
            Some(Lexeme { piece: Piece::Word(word), spot }) if !is_reserved(word) => (word, *spot),
            Some(Lexeme { piece: Piece::Word(word), spot }) => {
                let says = format!("expected {what}, found '{word}', a word of the language");
                return Err(Mistake::new(
                    *spot,
                    format!("{says}; a name like that is written \"{word}\""),
                ));
            }
            _ => return self.expected(what),
        };
        let letters = name.chars().count();
        if letters == 0 || letters > MOST_LETTERS || name.chars().any(char::is_control) {
            let says = format!("a name has 1 to {MOST_LETTERS} letters; this is '{}'", short(name));
            return Err(Mistake::new(spot, says));
        }
        self.at += 1;
        Ok(name.clone())
    }

    /// A name, or a number after `word`: "value 3", "timeline 0".
    pub fn name(&mut self, word: &str, what: &str) -> Read<Name> {
        if self.eat(word) {
            return self.number(&format!("the number of a {word}"), 0..=u32::MAX).map(Name::Number);
        }
        self.plain_name(what).map(Name::Said)
    }
}
