//! A desk's own judgement.

use super::*;

#[cfg(not(feature = "mock"))]
#[link(name = "tteokbiran", kind = "static")]
extern "C" {
    fn tteokbiran_judge_desk(
        book: *const u8,
        book_len: usize,
        plan: *const u8,
        plan_len: usize,
        desks: *const u32,
        desks_len: usize,
        desk: u32,
        number: *mut u32,
        a: *mut u32,
        b: *mut u32,
        c: *mut u32,
    );
}

#[cfg(not(feature = "mock"))]
pub fn judge_desk(book: &[u8], plan: &[u8], desks: &[u32], desk: u32) -> Answer {
    answered(|[number, a, b, c]| unsafe {
        tteokbiran_judge_desk(
            book.as_ptr(),
            book.len(),
            plan.as_ptr(),
            plan.len(),
            desks.as_ptr(),
            desks.len(),
            desk,
            number,
            a,
            b,
            c,
        );
    })
}

#[cfg(feature = "mock")]
pub fn judge_desk(book: &[u8], plan: &[u8], desks: &[u32], desk: u32) -> Answer {
    second::desks::judge_desk(&from_bytes(book), &from_bytes(plan), desks, desk)
}
