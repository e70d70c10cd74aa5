//! Compares the static library with the independent program on random inputs: what each call returns, and every number
//! and byte that was lent to it. Run by `cargo test --release`; with `--test compare -- listing`, only the listing
//! program is compared.
//!
//! MOORSICKLE_SEED: a seed to use in place of the fresh one, to run a case again.
//! MOORSICKLE_LIST: the path of the listing program, to be compared too.

mod calls;
mod damage;
mod events;
mod growth;
mod layouts;
mod listing;
mod requests;

use calls::Comparison;
use damage::{DAMAGES, break_late_record, damage_bytes, damage_pages, record_places, rubbish};
use moorsickle_host::draft::{Layout, Page, back_to_back};
use moorsickle_host::paper;
use moorsickle_host::random::Random;
use std::env;

const FIXED_SEEDS: [u64; 3] = [1, 20_260_101, 0xFEED_FACE_CAFE_BEEF];
/// Inputs and growth runs for each seed.
const INPUTS: u64 = 20_000;
const GROWTH_RUNS: u64 = 5_000;
/// The calls that a whole run compares at least.
const LEAST_CALLS: u64 = 200_000;

fn main() {
    let fresh = match env::var("MOORSICKLE_SEED") {
        Ok(seed) => seed.parse().expect("MOORSICKLE_SEED is a decimal number"),
        Err(_) => Random::fresh_seed(),
    };
    println!("fresh seed: {fresh} (MOORSICKLE_SEED={fresh} repeats it)");
    if !env::args().any(|argument| argument == "listing") {
        compare_calls(fresh);
    }
    listing::compare_program(fresh);
}

/// Compares the calls, on the fixed seeds and the fresh one.
fn compare_calls(fresh: u64) {
    let mut comparison = Comparison::default();
    let mut damages = [DamageCount::default(); DAMAGES.len()];
    for seed in FIXED_SEEDS.into_iter().chain([fresh]) {
        for case in 0..INPUTS {
            let random = &mut Random::new(seed ^ case.wrapping_mul(0x2545_F491_4F6C_DD1D));
            comparison.about = format!("seed {seed} input {case}");
            compare_input(random, &mut comparison, &mut damages);
        }
        for case in 0..GROWTH_RUNS {
            let random = &mut Random::new(!seed ^ case.wrapping_mul(0x2545_F491_4F6C_DD1D));
            comparison.about = format!("seed {seed} growth run {case}");
            growth::compare_run(random, &mut comparison);
        }
        let (calls, differences) = (comparison.count(), comparison.differences());
        println!("seed {seed}: {calls} calls compared so far, {differences} differences");
    }
    comparison.finish();
    finish_damages(&damages);
    assert!(comparison.count() >= LEAST_CALLS);
    println!("{} calls compared, no difference", comparison.count());
}

/// Makes an input and compares all calls on it.
fn compare_input(random: &mut Random, comparison: &mut Comparison, damages: &mut [DamageCount]) {
    let mut layout = layouts::valid(random);
    match random.below(100) {
        0..40 => {
            let pages = layouts::paging(random, &layout);
            let input = Input::new(random, &back_to_back(&pages));
            compare_valid(random, comparison, &layout, &input);
            let reads_back = Layout::read(&back_to_back(&pages)) == layout;
            comparison.must(reads_back, "the draft does not read back");
        }
        40..70 => {
            let which = random.index(DAMAGES.len());
            let damage = &DAMAGES[which];
            if (damage.apply)(random, &mut layout) {
                let pages = layouts::paging(random, &layout);
                damages[which].note(refused_page(&pages));
                let input = Input::new(random, &back_to_back(&pages));
                let number = paper::lookup(input.pages(), 0, &mut [0; 3]);
                comparison.must(number == Err(damage.refusal), damage.name);
                compare_any(random, comparison, &layout, &input);
            }
        }
        70..72 => {
            if let Some(bytes) = break_late_record(random, &mut layout) {
                let input = Input::new(random, &bytes);
                let number = paper::lookup(input.pages(), 0, &mut [0; 3]);
                comparison.must(number == Err(3), "a late object record of wrong form");
                compare_any(random, comparison, &layout, &input);
            }
        }
        _ => {
            let bytes = damaged(random, &mut layout);
            let input = Input::new(random, &bytes);
            compare_any(random, comparison, &layout, &input);
        }
    }
}

/// Pages with damage of any kind, or several.
fn damaged(random: &mut Random, layout: &mut Layout) -> Vec<u8> {
    let damages = random.between(1, 7);
    if damages & 1 != 0 {
        for _ in 0..random.between(1, 4) {
            let damage = &DAMAGES[random.index(DAMAGES.len())];
            (damage.apply)(random, layout);
        }
    }
    let mut pages: Vec<Page> = layouts::paging(random, layout);
    if damages & 2 != 0 {
        for _ in 0..random.pick(&[1, 1, 2]) {
            if !pages.is_empty() {
                damage_pages(random, &mut pages);
            }
        }
    }
    if pages.is_empty() || random.chance(2) {
        return rubbish(random, &layout.pages());
    }
    let mut bytes = back_to_back(&pages);
    if damages & 4 != 0 {
        for _ in 0..random.pick(&[1, 1, 2]) {
            damage_bytes(random, &mut bytes, &record_places(&pages));
        }
    }
    bytes
}

/// Pages at a random alignment, with bytes around them.
struct Input {
    bytes: Vec<u8>,
    from: usize,
    to: usize,
}

impl Input {
    fn new(random: &mut Random, pages: &[u8]) -> Input {
        let from = random.index(17);
        let mut bytes = vec![0x50; from + pages.len() + 16];
        bytes[from..from + pages.len()].copy_from_slice(pages);
        Input {
            bytes,
            from,
            to: from + pages.len(),
        }
    }

    fn pages(&self) -> &[u8] {
        &self.bytes[self.from..self.to]
    }
}

/// One of each call. The layout is a hint for arguments: the pages may be damaged.
fn compare_any(random: &mut Random, comparison: &mut Comparison, layout: &Layout, input: &Input) {
    let copy = input.bytes.clone();
    let pages = input.pages();
    comparison.lookup(pages, random.of_any_size());
    let object = requests::object(random, layout);
    comparison.back(pages, object.target, object.number, random.of_any_size());
    let request = (random.of_any_size(), random.of_any_size());
    let room = requests::room(random, None);
    comparison.cut(random, pages, request, room);
    let number = random.below(4);
    let buffer = requests::buffer(random, None, 512);
    comparison.page(random, pages, number, buffer);
    let table = vec![7; random.pick(&[0, 3, 4])];
    let buffer = requests::buffer(random, None, 4992);
    let offset = random.of_any_size();
    comparison.grow(random, pages, (offset, 0), &table, buffer);
    comparison.must(copy == input.bytes, "the pages changed");
}

/// Many of each call on a valid layout.
fn compare_valid(random: &mut Random, comparison: &mut Comparison, layout: &Layout, input: &Input) {
    let copy = input.bytes.clone();
    let pages = input.pages();
    let mut offsets: Vec<u64> = (0..6).map(|_| requests::offset(random, layout)).collect();
    if random.chance(25) {
        offsets.extend(requests::borders(layout));
    }
    for offset in offsets {
        if let Some([target, number, byte]) = comparison.lookup(pages, offset) {
            let back = comparison.back(pages, target as u32, number, byte);
            comparison.must(back == Some(offset), "back is not the way back");
        }
    }
    for _ in 0..4 {
        let object = requests::object(random, layout);
        let byte = requests::object_byte(random, layout);
        comparison.back(pages, object.target, object.number, byte);
    }
    for _ in 0..6 {
        let request = requests::request(random, layout);
        let mut count = 0;
        let pieces = paper::cut(pages, request.0, request.1, &mut [0; 1280], &mut count);
        let room = requests::room(random, pieces.ok().map(|()| count));
        comparison.cut(random, pages, request, room);
    }
    compare_pages(random, comparison, pages);
    for _ in 0..3 {
        growth::compare_call(random, comparison, layout, pages);
    }
    comparison.must(copy == input.bytes, "the pages changed");
}

/// Some pages of the layout, and one that it does not have.
fn compare_pages(random: &mut Random, comparison: &mut Comparison, pages: &[u8]) {
    let length = |number| {
        let mut written = 0;
        let answer = paper::page(pages, number, &mut [0; 512], &mut written);
        answer.ok().map(|()| written)
    };
    let count = (0..).take_while(|number| length(*number).is_some()).count() as u64;
    let past = random.pick(&[count, count + 1, u64::MAX, 1 << 32, 1 << 16]);
    for number in [0, count - 1, random.below(count), past] {
        let buffer = requests::buffer(random, length(number), 512);
        comparison.page(random, pages, number, buffer);
    }
}

/// How often a damage came alone, and how often it was the first page that was refused, or a later one.
#[derive(Clone, Copy, Default)]
struct DamageCount {
    first_page: u64,
    later_page: u64,
}

impl DamageCount {
    fn note(&mut self, page: usize) {
        match page {
            0 => self.first_page += 1,
            _ => self.later_page += 1,
        }
    }
}

/// The page at which the listing refuses these pages.
fn refused_page(pages: &[Page]) -> usize {
    let text = paper::list(&listing::with_lengths(pages));
    let page = text.rsplit(' ').next().map(str::trim);
    page.and_then(|page| page.parse().ok()).unwrap_or(0)
}

/// Prints how often each damage came alone, and checks that each did, at page 0 and later.
fn finish_damages(damages: &[DamageCount]) {
    println!("layouts with one damage, each refused by its number (at page 0, at a later page):");
    for (damage, count) in DAMAGES.iter().zip(damages) {
        let (first, later) = (count.first_page, count.later_page);
        println!("  {} {:<34} {first:>6} {later:>6}", damage.refusal, damage.name);
        let only_first = damage.name.starts_with("first begins") || damage.name == "extension first";
        assert!(first > 0 || damage.refusal == 5, "never at page 0: {}", damage.name);
        assert!(later > 0 || only_first, "never at a later page: {}", damage.name);
    }
}
