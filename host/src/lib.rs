//! Moorsickle as a host uses it, and a check of it.
//!
//! - [`ffi`]: the five entry points of the static library, as safe calls on slices.
//! - [`paper`]: an independent program for the same calls and for the listing, written from document 01 alone.
//! - [`listing`]: the listing program, run as a process.
//! - [`draft`]: layouts as plain records, right or wrong, and their pages in any paging, for tests and benchmark.
//! - [`random`]: a small random generator with a seed.

pub mod draft;
pub mod ffi;
pub mod listing;
pub mod paper;
pub mod random;

/// What a call answers: done, or the number of the refusal (1 to 20, by document 01).
pub type Answer = Result<(), u32>;

/// Growth: pages, offset, low mark; changes the table; writes the new pages, their length, and 1 if the offset has a
/// home.
pub type Grow = fn(&[u8], u64, u64, &mut [u64], &mut [u8], &mut [u64; 2]) -> Answer;

/// The five calls of one program, so that two programs can be compared and timed alike. The pages of the layout are
/// back to back in the first slice. If a call refuses, everything lent to it stays as it was.
pub struct Program {
    pub name: &'static str,
    /// pages, offset; writes the home: target, number, byte
    pub lookup: fn(&[u8], u64, &mut [u64; 3]) -> Answer,
    /// pages, target, number, byte; writes the file offset
    pub back: fn(&[u8], u32, u64, u64, &mut u64) -> Answer,
    /// pages, offset, length; writes the pieces, five numbers each, and their count
    pub cut: fn(&[u8], u64, u64, &mut [u64], &mut u64) -> Answer,
    /// pages, page number; writes the page and its length
    pub page: fn(&[u8], u64, &mut [u8], &mut u64) -> Answer,
    pub grow: Grow,
}

/// The static library.
pub static LIBRARY: Program = Program {
    name: "library",
    lookup: ffi::lookup,
    back: ffi::back,
    cut: ffi::cut,
    page: ffi::page,
    grow: ffi::grow,
};

/// The independent program.
pub static INDEPENDENT: Program = Program {
    name: "independent",
    lookup: paper::lookup,
    back: paper::back,
    cut: paper::cut,
    page: paper::page,
    grow: paper::grow,
};
