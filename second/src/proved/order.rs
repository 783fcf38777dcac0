//! Books that speak only of order.

use super::*;

#[cfg(not(feature = "mock"))]
#[link(name = "tteokbiran", kind = "static")]
extern "C" {
    fn tteokbiran_order_only(book: *const u8, book_len: usize) -> bool;
    fn tteokbiran_judge_by_order(
        book: *const u8,
        book_len: usize,
        plan: *const u8,
        plan_len: usize,
        number: *mut u32,
        a: *mut u32,
        b: *mut u32,
        c: *mut u32,
    );
}

#[cfg(not(feature = "mock"))]
pub fn order_only(book: &[u8]) -> bool {
    unsafe { tteokbiran_order_only(book.as_ptr(), book.len()) }
}

#[cfg(not(feature = "mock"))]
pub fn judge_by_order(book: &[u8], plan: &[u8]) -> Answer {
    answered(|[number, a, b, c]| unsafe {
        tteokbiran_judge_by_order(
            book.as_ptr(),
            book.len(),
            plan.as_ptr(),
            plan.len(),
            number,
            a,
            b,
            c,
        );
    })
}

#[cfg(feature = "mock")]
pub fn order_only(book: &[u8]) -> bool {
    second::order::order_only(&from_bytes(book))
}

#[cfg(feature = "mock")]
pub fn judge_by_order(book: &[u8], plan: &[u8]) -> Answer {
    second::order::judge_by_order(&from_bytes(book), &from_bytes(plan))
}
