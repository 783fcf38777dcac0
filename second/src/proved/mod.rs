//! The proved library, called as a C program calls it. Only the files here
//! know its signatures; the programs that use it take them in as a module.
#![allow(dead_code, unused_imports)] // not every program asks everything

pub mod desks;
pub mod events;
pub mod order;
pub mod removal;

use second::words::from_bytes;
use second::{Answer, Position};

/// What a step left behind in the five numbers lent to it.
#[derive(Clone, Copy, Debug, PartialEq, Eq)]
pub struct Step {
    pub more: bool,
    pub token: u32,
    pub start: u64,
    pub value: u32,
    pub end: u64,
    pub job: u32,
}

/// What value, end and job hold before a step; "no more" leaves them.
pub const UNSET: u32 = 0xDEAD_BEEF;

#[cfg(not(feature = "mock"))]
pub const NAME: &str = "the proved library";
#[cfg(feature = "mock")]
pub const NAME: &str = "the second judge itself (mock: nothing is compared)";

/// The answer that a call leaves in the four numbers lent to it.
#[cfg(not(feature = "mock"))]
fn answered(call: impl FnOnce([*mut u32; 4])) -> Answer {
    let mut answer = [UNSET; 4];
    let [number, a, b, c] = &mut answer;
    call([number, a, b, c]);
    answer
}

#[cfg(not(feature = "mock"))]
mod calls {
    use super::*;

    // A slice is a pointer and a count; an answer comes back number by number.
    #[link(name = "tteokbiran", kind = "static")]
    extern "C" {
        fn tteokbiran_judge(
            book: *const u8,
            book_len: usize,
            plan: *const u8,
            plan_len: usize,
            number: *mut u32,
            a: *mut u32,
            b: *mut u32,
            c: *mut u32,
        );
        fn tteokbiran_judge_sheet(
            sheet: *const u8,
            sheet_len: usize,
            plan: *const u8,
            plan_len: usize,
            number: *mut u32,
            a: *mut u32,
            b: *mut u32,
            c: *mut u32,
        );
        fn tteokbiran_translate(
            sheet: *const u8,
            sheet_len: usize,
            room: *mut u32,
            room_len: usize,
            number: *mut u32,
            a: *mut u32,
            b: *mut u32,
            c: *mut u32,
        );
        fn tteokbiran_narrow(
            sheet: *const u8,
            sheet_len: usize,
            alternative: u32,
            table: *mut u32,
            table_len: usize,
            number: *mut u32,
            a: *mut u32,
            b: *mut u32,
            c: *mut u32,
        );
        fn tteokbiran_earliest(
            book: *const u8,
            book_len: usize,
            alternative: u32,
            times: *mut u64,
            times_len: usize,
            number: *mut u32,
            a: *mut u32,
            b: *mut u32,
            c: *mut u32,
        );
        fn tteokbiran_open(
            book: *const u32,
            book_len: usize,
            plan: *const u32,
            plan_len: usize,
            line: u32,
            number: *mut u32,
            a: *mut u32,
            b: *mut u32,
            c: *mut u32,
            token: *mut u32,
        );
        fn tteokbiran_step(
            plan: *const u32,
            plan_len: usize,
            line: u32,
            token: *mut u32,
            start: *mut u64,
            value: *mut u32,
            end: *mut u64,
            job: *mut u32,
        ) -> bool;
    }

    // Safe, here and in the other files: each pointer comes with the length of a
    // live slice or points to a live number, and nothing is kept.
    pub fn judge(book: &[u8], plan: &[u8]) -> Answer {
        answered(|[number, a, b, c]| unsafe {
            tteokbiran_judge(book.as_ptr(), book.len(), plan.as_ptr(), plan.len(), number, a, b, c);
        })
    }

    pub fn judge_sheet(sheet: &[u8], plan: &[u8]) -> Answer {
        answered(|[number, a, b, c]| unsafe {
            tteokbiran_judge_sheet(
                sheet.as_ptr(),
                sheet.len(),
                plan.as_ptr(),
                plan.len(),
                number,
                a,
                b,
                c,
            );
        })
    }

    pub fn translate(sheet: &[u8], room: &mut [u32]) -> Answer {
        let (words, len) = (room.as_mut_ptr(), room.len());
        answered(|[number, a, b, c]| unsafe {
            tteokbiran_translate(sheet.as_ptr(), sheet.len(), words, len, number, a, b, c);
        })
    }

    pub fn narrow(sheet: &[u8], alternative: u32, table: &mut [u32]) -> Answer {
        let (words, len) = (table.as_mut_ptr(), table.len());
        answered(|[number, a, b, c]| unsafe {
            let sheet = (sheet.as_ptr(), sheet.len());
            tteokbiran_narrow(sheet.0, sheet.1, alternative, words, len, number, a, b, c);
        })
    }

    pub fn earliest(book: &[u8], alternative: u32, times: &mut [u64]) -> Answer {
        let (words, len) = (times.as_mut_ptr(), times.len());
        answered(|[number, a, b, c]| unsafe {
            let book = (book.as_ptr(), book.len());
            tteokbiran_earliest(book.0, book.1, alternative, words, len, number, a, b, c);
        })
    }

    /// The answer, and the token number that the reader stands at.
    pub fn open(book: &[u32], plan: &[u32], line: u32) -> (Answer, u32) {
        let mut token = UNSET;
        let answer = answered(|[number, a, b, c]| unsafe {
            tteokbiran_open(
                book.as_ptr(),
                book.len(),
                plan.as_ptr(),
                plan.len(),
                line,
                number,
                a,
                b,
                c,
                &mut token,
            );
        });
        (answer, token)
    }

    pub fn step(plan: &[u32], at: Position) -> Step {
        let (mut token, mut start) = (at.token, u64::from(at.start));
        let (mut value, mut end, mut job) = (UNSET, u64::from(UNSET), UNSET);
        let more = unsafe {
            tteokbiran_step(
                plan.as_ptr(),
                plan.len(),
                at.line,
                &mut token,
                &mut start,
                &mut value,
                &mut end,
                &mut job,
            )
        };
        Step { more, token, start, value, end, job }
    }
}

#[cfg(feature = "mock")]
mod calls {
    use super::*;
    pub use second::bytes::{earliest, judge, judge_sheet, narrow, translate};

    pub fn open(book: &[u32], plan: &[u32], line: u32) -> (Answer, u32) {
        let (answer, token, _) = second::open_reader(book, plan, line);
        (answer, token)
    }

    pub fn step(plan: &[u32], at: Position) -> Step {
        expected(second::step(plan, at), at)
    }
}

pub use calls::{earliest, judge, judge_sheet, narrow, open, step, translate};

/// The second judge's step in the same form.
pub fn expected(step: Option<(second::Seen, Position)>, at: Position) -> Step {
    match step {
        Some((seen, next)) => Step {
            more: true,
            token: next.token,
            start: next.start.into(),
            value: seen.value,
            end: seen.end.into(),
            job: seen.job,
        },
        None => Step {
            more: false,
            token: at.token,
            start: at.start.into(),
            value: UNSET,
            end: UNSET.into(),
            job: UNSET,
        },
    }
}
