//! The proved library, called as a C program calls it: include/tteokbiran.h.
//! The only file that knows its signatures.

use desk::answer::Answer;

#[link(name = "tteokbiran", kind = "static")]
extern "C" {
    fn tteokbiran_judge(
        book: *const u8,
        book_len: usize,
        plan: *const u8,
        plan_len: usize,
        number: *mut u32,
        a: *mut u32,
        b: *mut u32,
        c: *mut u32,
    );
    fn tteokbiran_judge_sheet(
        sheet: *const u8,
        sheet_len: usize,
        plan: *const u8,
        plan_len: usize,
        number: *mut u32,
        a: *mut u32,
        b: *mut u32,
        c: *mut u32,
    );
}

/// The answer for the bytes of a book and a plan.
pub fn judge(book: &[u8], plan: &[u8]) -> Answer {
    let [mut number, mut a, mut b, mut c] = [0; 4];
    // Safe, here and below: each pointer comes with the length of a live slice or
    // points to a live number, and nothing is kept.
    unsafe {
        tteokbiran_judge(
            book.as_ptr(),
            book.len(),
            plan.as_ptr(),
            plan.len(),
            &mut number,
            &mut a,
            &mut b,
            &mut c,
        );
    }
    [number, a, b, c]
}

/// The answer for the bytes of a sheet and a plan.
pub fn judge_sheet(sheet: &[u8], plan: &[u8]) -> Answer {
    let [mut number, mut a, mut b, mut c] = [0; 4];
    unsafe {
        tteokbiran_judge_sheet(
            sheet.as_ptr(),
            sheet.len(),
            plan.as_ptr(),
            plan.len(),
            &mut number,
            &mut a,
            &mut b,
            &mut c,
        );
    }
    [number, a, b, c]
}
