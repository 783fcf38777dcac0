//! Plans as events in time order.

use super::*;

#[cfg(not(feature = "mock"))]
#[link(name = "tteokbiran", kind = "static")]
extern "C" {
    fn tteokbiran_write_events(
        book: *const u8,
        book_len: usize,
        plan: *const u8,
        plan_len: usize,
        room: *mut u32,
        room_len: usize,
        number: *mut u32,
        a: *mut u32,
        b: *mut u32,
        c: *mut u32,
    );
    fn tteokbiran_read_events(
        book: *const u8,
        book_len: usize,
        list: *const u32,
        list_len: usize,
        room: *mut u32,
        room_len: usize,
        number: *mut u32,
        a: *mut u32,
        b: *mut u32,
        c: *mut u32,
    );
}

#[cfg(not(feature = "mock"))]
pub fn write_events(book: &[u8], plan: &[u8], room: &mut [u32]) -> Answer {
    answered(|[number, a, b, c]| unsafe {
        tteokbiran_write_events(
            book.as_ptr(),
            book.len(),
            plan.as_ptr(),
            plan.len(),
            room.as_mut_ptr(),
            room.len(),
            number,
            a,
            b,
            c,
        );
    })
}

#[cfg(not(feature = "mock"))]
pub fn read_events(book: &[u8], list: &[u32], room: &mut [u32]) -> Answer {
    answered(|[number, a, b, c]| unsafe {
        tteokbiran_read_events(
            book.as_ptr(),
            book.len(),
            list.as_ptr(),
            list.len(),
            room.as_mut_ptr(),
            room.len(),
            number,
            a,
            b,
            c,
        );
    })
}

#[cfg(feature = "mock")]
pub fn write_events(book: &[u8], plan: &[u8], room: &mut [u32]) -> Answer {
    second::events::write_events(&from_bytes(book), &from_bytes(plan), room)
}

#[cfg(feature = "mock")]
pub fn read_events(book: &[u8], list: &[u32], room: &mut [u32]) -> Answer {
    second::events::read_events(&from_bytes(book), list, room)
}
