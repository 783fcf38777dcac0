//! A second judge of timeline plans, written from the law alone and by other
//! means than the proved one, to compare the two.

pub mod decode;
pub mod desks;
pub mod earliest;
pub mod events;
pub mod generate;
pub mod layout;
pub mod narrow;
pub mod order;
pub mod placed;
pub mod plan;
pub mod reader;
pub mod removal;
pub mod search;
pub mod sheet;
pub mod specimens;
pub mod translate;
pub mod words;

#[cfg(test)]
mod tests;

pub use earliest::earliest;
pub use layout::Answer;
pub use narrow::narrow;
pub use reader::{step, Position, Seen};
pub use translate::translate;

use decode::{decode, Book, Test};
use layout::N;
use plan::{tokens, Tokens};
use words::from_bytes;

/// Book and plan decoded: faults 1 to 11, then 18.
fn both<T: Test>(book: &[u32], plan: &[u32]) -> Result<(Book<T>, Tokens), Answer> {
    let book = decode(book)?;
    let tokens = tokens(&book, plan)?;
    Ok((book, tokens))
}

fn judge_by<T: Test>(book: &[u32], plan: &[u32]) -> Answer {
    match both::<T>(book, plan) {
        Ok((book, tokens)) => search::judge_rules(&book, &tokens),
        Err(fault) => fault,
    }
}

/// Judges a plan by a book.
pub fn judge(book: &[u32], plan: &[u32]) -> Answer {
    judge_by::<search::Atom>(book, plan)
}

/// Judges a plan by a sheet, without translating it.
pub fn judge_sheet(sheet: &[u32], plan: &[u32]) -> Answer {
    judge_by::<sheet::Constraint>(sheet, plan)
}

/// Opens a reader: the answer, then the token and start where it stands.
pub fn open_reader(book: &[u32], plan: &[u32], line: u32) -> (Answer, u32, u32) {
    match both::<search::Atom>(book, plan) {
        Err(fault) => (fault, N, 0),
        Ok((book, _)) if line as usize >= book.variables.len() => ([17, 0, 0, 0], N, 0),
        Ok(_) => ([0, 0, 0, 0], 0, 0),
    }
}

/// The same on files.
pub mod bytes {
    use super::*;

    pub fn judge(book: &[u8], plan: &[u8]) -> Answer {
        super::judge(&from_bytes(book), &from_bytes(plan))
    }

    pub fn judge_sheet(sheet: &[u8], plan: &[u8]) -> Answer {
        super::judge_sheet(&from_bytes(sheet), &from_bytes(plan))
    }

    pub fn translate(sheet: &[u8], room: &mut [u32]) -> Answer {
        super::translate(&from_bytes(sheet), room)
    }

    pub fn narrow(sheet: &[u8], alternative: u32, table: &mut [u32]) -> Answer {
        super::narrow(&from_bytes(sheet), alternative, table)
    }

    pub fn earliest(book: &[u8], alternative: u32, room: &mut [u64]) -> Answer {
        super::earliest(&from_bytes(book), alternative, room)
    }

    pub fn open_reader(book: &[u8], plan: &[u8], line: u32) -> (Answer, u32, u32) {
        super::open_reader(&from_bytes(book), &from_bytes(plan), line)
    }

    pub fn step(plan: &[u8], at: Position) -> Option<(Seen, Position)> {
        super::step(&from_bytes(plan), at)
    }
}
