//! Rare things that a run must have met, counted.

use std::collections::BTreeMap;

/// Every one of these must occur in a run.
const EVENTS: [&str; 20] = [
    "lookup: home of byte 2^64 - 2",
    "lookup: home in a layout of 256 object records",
    "cut: 256 pieces",
    "cut: over 256 pieces, with room for 257",
    "cut: at most 256 pieces, without room",
    "cut: room that is no multiple of 5",
    "cut: pieces in 3 components or more",
    "cut: length 0 at 2^64 - 1",
    "cut: request that ends at 2^64 - 1",
    "page: 512 bytes",
    "grow: accepted, and no home yet",
    "grow: repeat at 16 components",
    "grow: extension emptied by a grant",
    "grow: next extension emptied by a spill-over",
    "grow: begin + extension size above 2^64",
    "grow: table of 64 targets",
    "grow: table of 65 targets",
    "grow: table of more than 65 targets",
    "grow: table of 64 targets and a cut record",
    "grow: buffer short by one byte",
];

#[derive(Default)]
pub struct Events {
    counts: BTreeMap<&'static str, u64>,
}

impl Events {
    /// Counts the event if it happened.
    pub fn note(&mut self, happened: bool, name: &'static str) {
        debug_assert!(EVENTS.contains(&name));
        if happened {
            *self.counts.entry(name).or_insert(0) += 1;
        }
    }

    pub fn print(&self) {
        println!("rare things met:");
        for (name, count) in &self.counts {
            println!("  {name:<48} {count:>7}");
        }
    }

    /// The events that never happened.
    pub fn missing(&self) -> Vec<&'static str> {
        let never = |name: &&str| !self.counts.contains_key(name);
        EVENTS.into_iter().filter(never).collect()
    }
}
