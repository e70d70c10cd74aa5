//! Growth: single calls, and runs in which each accepted result is what the next call gets.

use crate::calls::Comparison;
use crate::layouts;
use crate::requests::{self, GrowthCall};
use moorsickle_host::draft::{Layout, back_to_back};
use moorsickle_host::paper;
use moorsickle_host::random::Random;

const MAX_LAYOUT_BYTES: u64 = 4992;
const CALLS_OF_A_RUN: usize = 12;

/// A run of growth calls, the first on a valid layout in any paging.
pub fn compare_run(random: &mut Random, comparison: &mut Comparison) {
    let layout = layouts::growable(random);
    let mut pages = back_to_back(&layouts::paging(random, &layout));
    for _ in 0..CALLS_OF_A_RUN {
        let layout = Layout::read(&pages);
        if let Some(grown) = compare_call(random, comparison, &layout, &pages) {
            pages = grown;
        }
    }
}

/// One growth call on a valid layout. Gives the new pages if it is accepted.
pub fn compare_call(
    random: &mut Random,
    comparison: &mut Comparison,
    layout: &Layout,
    pages: &[u8],
) -> Option<Vec<u8>> {
    let GrowthCall {
        offset,
        low_mark,
        table,
    } = requests::growth(random, layout);
    let mut answer = [0; 2];
    let largest = &mut [0; MAX_LAYOUT_BYTES as usize];
    let needed = paper::grow(pages, offset, low_mark, &mut table.clone(), largest, &mut answer);
    let needed = needed.ok().map(|()| answer[0]);
    let buffer = match random.chance(70) {
        true => MAX_LAYOUT_BYTES as usize,
        false => requests::buffer(random, needed, MAX_LAYOUT_BYTES),
    };
    comparison.note_short_by_one(needed.is_some_and(|needed| needed == buffer as u64 + 1));
    let grown = comparison.grow(random, pages, (offset, low_mark), &table, buffer)?;
    check_home(comparison, &grown.pages, offset, grown.has_home);
    check_homes_stay(random, comparison, layout, pages, &grown.pages);
    Some(grown.pages)
}

/// The answer tells whether the offset has a home in the new layout.
fn check_home(comparison: &mut Comparison, pages: &[u8], offset: u64, has_home: bool) {
    let found = comparison.lookup(pages, offset).is_some();
    comparison.must(found == has_home, "growth's answer about the home is wrong");
}

/// A byte that had a home has the same one.
fn check_homes_stay(random: &mut Random, comparison: &mut Comparison, layout: &Layout, before: &[u8], after: &[u8]) {
    let offset = requests::offset(random, layout);
    if let Some(home) = comparison.lookup(before, offset) {
        let stays = comparison.lookup(after, offset) == Some(home);
        comparison.must(stays, "growth moved a home");
    }
}
