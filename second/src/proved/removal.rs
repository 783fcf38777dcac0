//! Rules taken out of a lent book.

use super::*;

#[cfg(not(feature = "mock"))]
#[link(name = "tteokbiran", kind = "static")]
extern "C" {
    fn tteokbiran_remove_rules(
        book: *mut u32,
        book_len: usize,
        desks: *mut u32,
        desks_len: usize,
        list: *const u32,
        list_len: usize,
        number: *mut u32,
        a: *mut u32,
        b: *mut u32,
        c: *mut u32,
    );
}

#[cfg(not(feature = "mock"))]
pub fn remove_rules(book: &mut [u32], desks: &mut [u32], list: &[u32]) -> Answer {
    answered(|[number, a, b, c]| unsafe {
        tteokbiran_remove_rules(
            book.as_mut_ptr(),
            book.len(),
            desks.as_mut_ptr(),
            desks.len(),
            list.as_ptr(),
            list.len(),
            number,
            a,
            b,
            c,
        );
    })
}

#[cfg(feature = "mock")]
pub use second::removal::remove_rules;
