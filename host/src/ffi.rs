//! The five entry points of the static library, declared as in include/moorsickle.h, and a safe call for each.
//!
//! Every call takes the layout as its pages back to back and answers `Ok(())`, or `Err` with the number of the refusal.
//! It writes only if it answers `Ok`. The numbers of a refusal of the pages, by every call:
//!
//! - 1: the bytes end with pages outstanding
//! - 2: bytes come after the last page
//! - 3: the bytes of a page are not of the form of a page; also a page that is cut short or longer than 512 bytes
//! - 4: a page's number is not the next, or its generation is not that of page 0
//! - 5: more than 16 components
//! - 6: a component breaks the rules of its fields
//! - 7: components break the rules of neighbours
//! - 8: two components share an id, or two object records name the same target and number

use crate::Answer;

mod entry {
    unsafe extern "C" {
        pub fn moorsickle_lookup(pages: *const u8, pages_len: usize, offset: u64, home: *mut u64) -> u32;
        pub fn moorsickle_back(
            pages: *const u8,
            pages_len: usize,
            target: u32,
            number: u64,
            byte: u64,
            offset: *mut u64,
        ) -> u32;
        pub fn moorsickle_cut(
            pages: *const u8,
            pages_len: usize,
            offset: u64,
            length: u64,
            room: *mut u64,
            room_len: usize,
            count: *mut u64,
        ) -> u32;
        pub fn moorsickle_page(
            pages: *const u8,
            pages_len: usize,
            number: u64,
            buffer: *mut u8,
            buffer_len: usize,
            written: *mut u64,
        ) -> u32;
        pub fn moorsickle_grow(
            pages: *const u8,
            pages_len: usize,
            offset: u64,
            low_mark: u64,
            table: *mut u64,
            table_len: usize,
            grown: *mut u8,
            grown_len: usize,
            answer: *mut u64,
        ) -> u32;
    }
}

fn answer(returned: u32) -> Answer {
    match returned {
        0 => Ok(()),
        refusal => Err(refusal),
    }
}

/// The home of the file byte at `offset`: target, object number, object byte.
///
/// Refusals: 1 to 8 of the pages; 10 if the byte is at or past the last component's end; 11 if it is in a component
/// that is not init.
pub fn lookup(pages: &[u8], offset: u64, home: &mut [u64; 3]) -> Answer {
    // SAFETY: each pointer comes from a reference or slice of the length stated, and nothing lent overlaps.
    answer(unsafe { entry::moorsickle_lookup(pages.as_ptr(), pages.len(), offset, home.as_mut_ptr()) })
}

/// The file byte whose home is this byte of the object with this target and number.
///
/// Refusals: 1 to 8 of the pages; 13 if the object is not in the layout; 14 if the object byte is hidden.
pub fn back(pages: &[u8], target: u32, number: u64, byte: u64, offset: &mut u64) -> Answer {
    // SAFETY: as in `lookup`.
    answer(unsafe { entry::moorsickle_back(pages.as_ptr(), pages.len(), target, number, byte, offset) })
}

/// The pieces of a request, five numbers each: file offset, length, component id, stripe, object byte; and their count.
/// There is room for `room.len() / 5` pieces.
///
/// Refusals: 1 to 8 of the pages; 9 if offset + length is above 2^64 - 1; 10 and 11 as by `lookup`, of any byte asked
/// for; 12 if there are more pieces than 256 or than the room takes.
pub fn cut(pages: &[u8], offset: u64, length: u64, room: &mut [u64], count: &mut u64) -> Answer {
    // SAFETY: as in `lookup`.
    answer(unsafe {
        entry::moorsickle_cut(
            pages.as_ptr(),
            pages.len(),
            offset,
            length,
            room.as_mut_ptr(),
            room.len(),
            count,
        )
    })
}

/// One page of the layout by the writer's rule, to the first bytes of `buffer`; and its length.
///
/// Refusals: 1 to 8 of the pages; 4 also if the layout has no page of this number; 20 if the buffer is too short.
pub fn page(pages: &[u8], number: u64, buffer: &mut [u8], written: &mut u64) -> Answer {
    // SAFETY: as in `lookup`.
    answer(unsafe {
        entry::moorsickle_page(
            pages.as_ptr(),
            pages.len(),
            number,
            buffer.as_mut_ptr(),
            buffer.len(),
            written,
        )
    })
}

/// One step of growth for the component that holds `offset`. The table has three numbers a record: target, free bytes,
/// next object number. Writes the new pages to the first bytes of `grown`, and to `result` their length and 1 if the
/// offset has a home now, else 0.
///
/// Refusals: 1 to 8 of the pages; 10 if the offset is at or past the last component's end; 15 if the table is bad; 16
/// if too few targets are usable; 17 if 17 components would be left; 18 if a chosen target and number are in the layout
/// already; 19 if a change is due and the generation is 2^32 - 1; 20, asked last, if `grown` is too short.
pub fn grow(
    pages: &[u8],
    offset: u64,
    low_mark: u64,
    table: &mut [u64],
    grown: &mut [u8],
    result: &mut [u64; 2],
) -> Answer {
    // SAFETY: as in `lookup`.
    answer(unsafe {
        entry::moorsickle_grow(
            pages.as_ptr(),
            pages.len(),
            offset,
            low_mark,
            table.as_mut_ptr(),
            table.len(),
            grown.as_mut_ptr(),
            grown.len(),
            result.as_mut_ptr(),
        )
    })
}
