//! Times the calls of the static library and of the independent program in one run, on the same inputs.
//!
//! Each call reads and checks the pages anew. Both programs are called through pointers to functions with the same
//! signature. In each round the two are timed one after the other, the order changing from round to round; the best
//! round of each counts. The arguments go round a list of 64, the same for both. The buffers are lent again and again,
//! so they and the pages are in the processor's caches (warm).
//!
//! Run by `cargo run --release --bin bench`.

use moorsickle_host::draft::{Component, EOF, Layout, Object};
use moorsickle_host::random::Random;
use moorsickle_host::{INDEPENDENT, LIBRARY, Program};
use std::hint::black_box;
use std::io::Write;
use std::time::{Duration, Instant};

const ROUNDS: usize = 120;
/// What one program's calls take together in one round. It is short, so that some rounds are not interrupted by other
/// work of the machine.
const ROUND_TIME: Duration = Duration::from_millis(2);
/// The arguments that calls go round.
const VARIANTS: usize = 64;

const MIB: u32 = 1_048_576;
const M: u64 = 1_048_576;

/// A layout that is measured.
struct Subject {
    name: &'static str,
    pages: Vec<u8>,
    /// the same with the last component bare, for growth
    bare_pages: Vec<u8>,
    /// where the last component begins and the largest offset asked for
    last_begin: u64,
    reach: u64,
    page_count: u64,
}

/// What is measured: makes this many calls of a program.
type Calls<'s> = Box<dyn FnMut(&Program, u64) + 's>;

struct Row {
    subject: &'static str,
    call: &'static str,
    library: f64,
    independent: f64,
}

fn main() {
    let subjects = [
        subject("1 component, 1 stripe", &[1]),
        subject("3 components, 1, 4 and 16 stripes", &[1, 4, 16]),
        subject("16 components, 16 stripes each", &[16; 16]),
    ];
    let mut rows = Vec::new();
    for subject in &subjects {
        for (call, calls) in calls(subject) {
            progress(&format!("{}: {call}", subject.name));
            let (library, independent) = measure(calls);
            rows.push(Row {
                subject: subject.name,
                call,
                library,
                independent,
            });
        }
    }
    progress("");
    print(&rows);
}

/// A layout of init components with these stripe counts, all with a stripe size of 1 MiB and 300 MiB long, except that
/// the last one goes to EOF. The object numbers are in no order.
fn subject(name: &'static str, stripe_counts: &[u64]) -> Subject {
    let mut random = Random::new(2);
    let mut components = Vec::new();
    for (place, stripes) in stripe_counts.iter().enumerate() {
        let begin = place as u64 * 300 * M;
        let last = place + 1 == stripe_counts.len();
        let end = if last { EOF } else { begin + 300 * M };
        let objects = (0..*stripes).map(|stripe| Object {
            target: (stripe * 3 + place as u64) as u32,
            number: random.below(1 << 32),
        });
        let id = place as u16 + 1;
        components.push(Component::init(id, begin, end, MIB, objects.collect()));
    }
    let layout = Layout {
        generation: 7,
        components,
    };
    let mut bare = layout.clone();
    let last_begin = bare.components.pop().map_or(0, |last| last.begin);
    let stripes = stripe_counts[stripe_counts.len() - 1] as u16;
    let id = stripe_counts.len() as u16;
    bare.components.push(Component::bare(id, last_begin, EOF, MIB, stripes));
    Subject {
        name,
        pages: layout.bytes(),
        bare_pages: bare.bytes(),
        last_begin,
        reach: last_begin + 300 * M,
        page_count: layout.pages().len() as u64,
    }
}

/// Everything that is measured on a layout.
fn calls(subject: &Subject) -> Vec<(&'static str, Calls<'_>)> {
    vec![
        ("lookup", lookups(subject)),
        ("back", backs(subject)),
        ("cut, 1 piece", cuts(subject, 1)),
        ("cut, 16 pieces", cuts(subject, 16)),
        ("cut, 256 pieces", cuts(subject, 256)),
        ("page", page_calls(subject)),
        ("grow, no change", growths(subject, &subject.pages)),
        ("grow, last made init", growths(subject, &subject.bare_pages)),
    ]
}

/// Offsets all over the layout's components.
fn offsets(subject: &Subject) -> Vec<u64> {
    let mut random = Random::new(1);
    (0..VARIANTS).map(|_| random.below(subject.reach)).collect()
}

fn lookups(subject: &Subject) -> Calls<'_> {
    let offsets = offsets(subject);
    let mut home = [0; 3];
    Box::new(move |program, count| {
        for offset in offsets.iter().cycle().take(count as usize) {
            let answer = (program.lookup)(black_box(&subject.pages), *offset, &mut home);
            assert!(black_box(answer).is_ok());
            black_box(&mut home);
        }
    })
}

fn backs(subject: &Subject) -> Calls<'_> {
    let homes: Vec<[u64; 3]> = offsets(subject)
        .into_iter()
        .map(|offset| {
            let mut home = [0; 3];
            let answer = (INDEPENDENT.lookup)(&subject.pages, offset, &mut home);
            assert!(answer.is_ok());
            home
        })
        .collect();
    let mut offset = 0;
    Box::new(move |program, count| {
        for [target, number, byte] in homes.iter().cycle().take(count as usize) {
            let pages = black_box(&subject.pages);
            let answer = (program.back)(pages, *target as u32, *number, *byte, &mut offset);
            assert!(black_box(answer).is_ok());
            black_box(&mut offset);
        }
    })
}

/// Requests of exactly this many pieces. All borders of components are multiples of the stripe size, so a request that
/// begins within a unit has one piece more than the units it is long.
fn cuts(subject: &Subject, pieces: u64) -> Calls<'_> {
    let requests: Vec<(u64, u64)> = offsets(subject)
        .into_iter()
        .map(|offset| {
            let length = match pieces {
                1 => M - offset % M,
                _ => (pieces - 1) * M,
            };
            (offset | 1, length - u64::from(pieces == 1))
        })
        .collect();
    let mut room = vec![0; 5 * 256];
    let mut found = 0;
    Box::new(move |program, count| {
        for (offset, length) in requests.iter().cycle().take(count as usize) {
            let pages = black_box(&subject.pages);
            let answer = (program.cut)(pages, *offset, *length, &mut room, &mut found);
            assert!(black_box(answer).is_ok() && found == pieces);
            black_box(&mut room);
        }
    })
}

fn page_calls(subject: &Subject) -> Calls<'_> {
    let mut buffer = [0; 512];
    let mut written = 0;
    Box::new(move |program, count| {
        for number in (0..subject.page_count).cycle().take(count as usize) {
            let pages = black_box(&subject.pages);
            let answer = (program.page)(pages, number, &mut buffer, &mut written);
            assert!(black_box(answer).is_ok());
            black_box(&mut buffer);
        }
    })
}

/// Growth at offsets in the last component, with a full table of 64 targets. The next numbers go up from call to call;
/// they start far above those of the layout.
fn growths<'s>(subject: &'s Subject, pages: &'s [u8]) -> Calls<'s> {
    let width = subject.reach - subject.last_begin;
    let offsets: Vec<u64> = offsets(subject)
        .into_iter()
        .map(|offset| subject.last_begin + offset % width)
        .collect();
    let mut table: Vec<u64> = (0..64).flat_map(|target| [target, 1000, 1 << 40]).collect();
    let mut grown = vec![0; 4992];
    let mut answer = [0; 2];
    Box::new(move |program, count| {
        for offset in offsets.iter().cycle().take(count as usize) {
            let pages = black_box(pages);
            let done = (program.grow)(pages, *offset, 1000, &mut table, &mut grown, &mut answer);
            assert!(black_box(done).is_ok() && answer[1] == 1);
            black_box(&mut grown);
        }
    })
}

/// The best nanoseconds for a call of the library and of the independent program.
fn measure(mut calls: Calls) -> (f64, f64) {
    let programs = [&LIBRARY, &INDEPENDENT];
    let counts = programs.map(|program| calibrate(&mut calls, program));
    let mut best = [f64::INFINITY; 2];
    for round in 0..ROUNDS {
        for turn in 0..2 {
            let which = (round + turn) % 2;
            let time = nanoseconds(&mut calls, programs[which], counts[which]);
            best[which] = best[which].min(time);
        }
    }
    (best[0], best[1])
}

/// The number of calls that take about the time of a round.
fn calibrate(calls: &mut Calls, program: &Program) -> u64 {
    let mut count = VARIANTS as u64;
    loop {
        let time = nanoseconds(calls, program, count) * count as f64;
        let wanted = ROUND_TIME.as_nanos() as f64;
        if time * 4.0 > wanted {
            return (count as f64 * wanted / time) as u64 + 1;
        }
        count *= 4;
    }
}

fn nanoseconds(calls: &mut Calls, program: &Program, count: u64) -> f64 {
    let start = Instant::now();
    calls(black_box(program), count);
    start.elapsed().as_nanos() as f64 / count as f64
}

/// Shows on standard error what is being measured, on one line.
fn progress(what: &str) {
    eprint!("\r{what:<64}");
    let _ = std::io::stderr().flush();
}

fn print(rows: &[Row]) {
    eprintln!();
    println!("nanoseconds a call, best of {ROUNDS} rounds, warm buffers");
    let mut subject = "";
    for row in rows {
        if row.subject != subject {
            subject = row.subject;
            println!("\n{subject}");
            println!(
                "  {:<22}{:>12}{:>14}{:>10}",
                "call", LIBRARY.name, INDEPENDENT.name, "ratio"
            );
        }
        println!(
            "  {:<22}{:>12.1}{:>14.1}{:>10.2}",
            row.call,
            row.library,
            row.independent,
            row.library / row.independent
        );
    }
}
