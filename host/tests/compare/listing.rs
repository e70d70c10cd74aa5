//! Compares the listing program, run as a process, with the independent listing.

use crate::damage::{damage_bytes, damage_pages, pick_damage, record_places};
use crate::layouts;
use moorsickle_host::draft::Page;
use moorsickle_host::listing::printed;
use moorsickle_host::paper;
use moorsickle_host::random::Random;
use std::collections::BTreeMap;
use std::env;

const CASES: u64 = 3000;

/// Compares the program that MOORSICKLE_LIST names, if it is set.
pub fn compare_program(seed: u64) {
    let Some(program) = env::var_os("MOORSICKLE_LIST") else {
        println!("listing: MOORSICKLE_LIST is not set, so no listing program was compared");
        return;
    };
    println!("listing: comparing {CASES} inputs");
    let mut counts = BTreeMap::new();
    for case in 0..CASES {
        let random = &mut Random::new(seed.rotate_left(32) ^ case << 20);
        let input = input(random);
        let wanted = paper::list(&input);
        let printed = printed(&program, &input).expect("the listing program runs");
        assert_eq!(printed, wanted, "seed {seed} listing {case}, input {input:02x?}");
        *counts.entry(kind(&wanted)).or_insert(0) += 1;
    }
    println!("listing: no difference; by answer:");
    for (kind, count) in &counts {
        println!("  {kind:<10} {count:>6}");
    }
    assert_eq!(counts.len(), 9, "not every answer occurred");
}

/// What a listing says: a layout, or the number of the refusal.
fn kind(text: &str) -> String {
    let words: Vec<&str> = text.split_whitespace().take(2).collect();
    match words[0] {
        "refused" => words.join(" "),
        other => other.to_string(),
    }
}

/// Pages, each after its length; in most cases damaged somehow.
pub fn input(random: &mut Random) -> Vec<u8> {
    let mut layout = layouts::valid(random);
    let kind = random.below(6);
    if kind == 1 {
        (pick_damage(random).apply)(random, &mut layout);
    }
    let mut pages = layouts::paging(random, &layout);
    if kind == 2 {
        damage_pages(random, &mut pages);
    }
    let mut input = match kind {
        3 => damaged_page(random, &pages),
        4 => damaged_length(random, &pages),
        _ => with_lengths(&pages),
    };
    if kind == 5 {
        damage_bytes(random, &mut input, &record_places(&pages));
    }
    input
}

/// The pages, each after its length.
pub fn with_lengths(pages: &[Page]) -> Vec<u8> {
    pages.iter().flat_map(|page| with_length(&page.bytes())).collect()
}

fn with_length(page: &[u8]) -> Vec<u8> {
    [&(page.len() as u16).to_le_bytes(), page].concat()
}

/// The same with the bytes of one page damaged, which has its right length still.
fn damaged_page(random: &mut Random, pages: &[Page]) -> Vec<u8> {
    let place = random.index(pages.len());
    let mut bytes = pages[place].bytes();
    damage_bytes(random, &mut bytes, &record_places(&pages[place..=place]));
    let before = with_lengths(&pages[..place]);
    let after = with_lengths(&pages[place + 1..]);
    [before, with_length(&bytes), after].concat()
}

/// The same with one length damaged.
fn damaged_length(random: &mut Random, pages: &[Page]) -> Vec<u8> {
    let mut input = with_lengths(pages);
    let place = random.index(pages.len());
    let at = with_lengths(&pages[..place]).len();
    let right = pages[place].bytes().len() as u16;
    let length = match random.below(5) {
        0 => right - 1,
        1 => right + 1,
        2 => random.between(505, 520) as u16,
        3 => random.below(20) as u16,
        _ => random.number() as u16,
    };
    input[at..at + 2].copy_from_slice(&length.to_le_bytes());
    input
}
