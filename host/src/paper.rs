//! An independent program for document 01, written from that paper alone: reading and writing pages, lookup, back,
//! cutting, growth, and the listing. It works by reference to the page bytes and allocates nothing, except for the text
//! of the listing. Like the entry points, each call reads and checks all pages anew.

mod component;
mod grow;
mod layout;
mod list;
mod map;
mod write;

pub use grow::{Step, grow, step_due};
pub use list::list;
pub use map::{back, cut, lookup};
pub use write::page;

/// The refusal numbers of document 01.
pub mod refusal {
    pub const NOT_COMPLETE: u32 = 1;
    pub const AFTER_LAST_PAGE: u32 = 2;
    pub const FORM: u32 = 3;
    pub const PAGE_NUMBER: u32 = 4;
    pub const OVER_16: u32 = 5;
    pub const FIELDS: u32 = 6;
    pub const NEIGHBOURS: u32 = 7;
    pub const DISTINCTNESS: u32 = 8;
    pub const REQUEST_END: u32 = 9;
    pub const PAST_END: u32 = 10;
    pub const NOT_INIT: u32 = 11;
    pub const PIECES: u32 = 12;
    pub const NO_OBJECT: u32 = 13;
    pub const HIDDEN: u32 = 14;
    pub const TABLE: u32 = 15;
    pub const TOO_FEW_TARGETS: u32 = 16;
    pub const GROWN_OVER_16: u32 = 17;
    pub const OBJECT_IN_LAYOUT: u32 = 18;
    pub const GENERATION: u32 = 19;
    pub const BUFFER: u32 = 20;
}
