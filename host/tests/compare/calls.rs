//! Makes one call of both programs on copies of the same lent memory, compares what they return and every number and
//! byte that was lent, and counts the answers.

use crate::events::Events;
use moorsickle_host::draft::{Component, Layout, MAX_LAYOUT_BYTES};
use moorsickle_host::paper::{Step, step_due};
use moorsickle_host::random::Random;
use moorsickle_host::{Answer, Grow, INDEPENDENT, LIBRARY};
use std::collections::BTreeMap;
use std::fmt::Write;

pub const CALLS: [&str; 5] = ["lookup", "back", "cut", "page", "grow"];
pub const LOOKUP: usize = 0;
pub const BACK: usize = 1;
pub const CUT: usize = 2;
pub const PAGE: usize = 3;
pub const GROW: usize = 4;

/// The numbers that each call can give, besides 0 to 8.
const OWN_NUMBERS: [&[usize]; 5] = [
    &[10, 11],
    &[13, 14],
    &[9, 10, 11, 12],
    &[20],
    &[10, 15, 16, 17, 18, 19, 20],
];
/// Cells around lent memory that no call may change.
const GUARD: usize = 8;
const MOST_DIFFERENCES: usize = 20;

/// Lent memory between guards, filled at random.
#[derive(Clone, PartialEq)]
struct Lent<T> {
    cells: Vec<T>,
}

impl<T> Lent<T> {
    fn new(length: usize, fill: impl FnMut() -> T) -> Lent<T> {
        let cells = std::iter::repeat_with(fill).take(length + 2 * GUARD);
        Lent { cells: cells.collect() }
    }

    fn slice(&mut self) -> &mut [T] {
        let end = self.cells.len() - GUARD;
        &mut self.cells[GUARD..end]
    }
}

/// An accepted growth, for the next call of a run.
pub struct Grown {
    pub pages: Vec<u8>,
    pub has_home: bool,
}

#[derive(Default)]
pub struct Comparison {
    /// calls by entry point and number
    answers: [[u64; 21]; 5],
    /// page calls refused by 4 on a valid layout
    no_such_page: u64,
    /// accepted steps of growth, and calls that came to the step, by step
    steps: BTreeMap<Step, (u64, u64)>,
    events: Events,
    differences: Vec<String>,
    /// what is being compared, for the report of a difference
    pub about: String,
}

impl Comparison {
    pub fn lookup(&mut self, pages: &[u8], offset: u64) -> Option<[u64; 3]> {
        let before = [offset ^ 0xA5A5, !offset, 7];
        let (mut ours, mut theirs) = (before, before);
        let our = (LIBRARY.lookup)(pages, offset, &mut ours);
        let their = (INDEPENDENT.lookup)(pages, offset, &mut theirs);
        let inputs = || format!("offset {offset}");
        self.judge(LOOKUP, pages, (our, their), (&before, &ours, &theirs), inputs);
        let largest = their.is_ok() && pages.len() == MAX_LAYOUT_BYTES;
        let events = &mut self.events;
        events.note(largest, "lookup: home in a layout of 256 object records");
        let last = their.is_ok() && offset == u64::MAX - 1;
        events.note(last, "lookup: home of byte 2^64 - 2");
        their.is_ok().then_some(theirs)
    }

    pub fn back(&mut self, pages: &[u8], target: u32, number: u64, byte: u64) -> Option<u64> {
        let before = byte ^ 0x5A5A;
        let (mut ours, mut theirs) = (before, before);
        let our = (LIBRARY.back)(pages, target, number, byte, &mut ours);
        let their = (INDEPENDENT.back)(pages, target, number, byte, &mut theirs);
        let inputs = || format!("target {target} number {number} byte {byte}");
        self.judge(BACK, pages, (our, their), (&before, &ours, &theirs), inputs);
        their.is_ok().then_some(theirs)
    }

    pub fn cut(&mut self, random: &mut Random, pages: &[u8], (offset, length): (u64, u64), room: usize) {
        let before = (Lent::new(room, || random.number()), random.number());
        let (mut ours, mut theirs) = (before.clone(), before.clone());
        let our = (LIBRARY.cut)(pages, offset, length, ours.0.slice(), &mut ours.1);
        let their = (INDEPENDENT.cut)(pages, offset, length, theirs.0.slice(), &mut theirs.1);
        let inputs = || format!("offset {offset} length {length} room {room}");
        self.judge(CUT, pages, (our, their), (&before, &ours, &theirs), inputs);
        match their {
            Ok(()) => self.note_cut((offset, length), theirs.0.slice(), theirs.1),
            Err(12) => {
                let roomy = room >= 5 * 257;
                let events = &mut self.events;
                events.note(roomy, "cut: over 256 pieces, with room for 257");
                let fits = (INDEPENDENT.cut)(pages, offset, length, &mut [0; 1280], &mut 0);
                events.note(fits.is_ok(), "cut: at most 256 pieces, without room");
            }
            Err(_) => {}
        }
    }

    fn note_cut(&mut self, (offset, length): (u64, u64), room: &[u64], count: u64) {
        let mut ids: Vec<u64> = room.chunks(5).take(count as usize).map(|p| p[2]).collect();
        ids.dedup();
        let events = &mut self.events;
        events.note(count == 256, "cut: 256 pieces");
        events.note(!room.len().is_multiple_of(5), "cut: room that is no multiple of 5");
        events.note(ids.len() >= 3, "cut: pieces in 3 components or more");
        let nothing = length == 0 && offset == u64::MAX;
        events.note(nothing, "cut: length 0 at 2^64 - 1");
        let to_eof = length > 0 && offset + length == u64::MAX;
        events.note(to_eof, "cut: request that ends at 2^64 - 1");
    }

    pub fn page(&mut self, random: &mut Random, pages: &[u8], number: u64, buffer: usize) {
        let before = (Lent::new(buffer, || random.number() as u8), random.number());
        let (mut ours, mut theirs) = (before.clone(), before.clone());
        let our = (LIBRARY.page)(pages, number, ours.0.slice(), &mut ours.1);
        let their = (INDEPENDENT.page)(pages, number, theirs.0.slice(), &mut theirs.1);
        let inputs = || format!("page {number} buffer {buffer}");
        self.judge(PAGE, pages, (our, their), (&before, &ours, &theirs), inputs);
        let full = their.is_ok() && theirs.1 == 512;
        self.events.note(full, "page: 512 bytes");
        let valid = || (INDEPENDENT.lookup)(pages, 0, &mut [0; 3]) != Err(4);
        if their == Err(4) && valid() {
            self.no_such_page += 1;
        }
    }

    pub fn grow(
        &mut self,
        random: &mut Random,
        pages: &[u8],
        (offset, low_mark): (u64, u64),
        table: &[u64],
        buffer: usize,
    ) -> Option<Grown> {
        let mut records = table.iter();
        let lent_table = Lent::new(table.len(), || 0);
        let mut before = (
            lent_table,
            Lent::new(buffer, || random.number() as u8),
            [random.number(), random.number()],
        );
        before.0.slice().fill_with(|| records.next().copied().unwrap_or(0));
        let (mut ours, mut theirs) = (before.clone(), before.clone());
        let run = |grow: Grow, lent: &mut (Lent<u64>, Lent<u8>, [u64; 2])| {
            let (table, grown, answer) = lent;
            grow(pages, offset, low_mark, table.slice(), grown.slice(), answer)
        };
        let our = run(LIBRARY.grow, &mut ours);
        let their = run(INDEPENDENT.grow, &mut theirs);
        let inputs = || format!("offset {offset} low mark {low_mark} buffer {buffer} table {table:?}");
        self.judge(GROW, pages, (our, their), (&before, &ours, &theirs), inputs);
        let sizes = [(64, "grow: table of 64 targets"), (65, "grow: table of 65 targets")];
        for (size, name) in sizes {
            self.events.note(table.len() == 3 * size, name);
        }
        let long = table.len() > 3 * 65;
        self.events.note(long, "grow: table of more than 65 targets");
        let cut = table.len() / 3 == 64 && table.len() % 3 != 0;
        self.events.note(cut, "grow: table of 64 targets and a cut record");
        let step = step_due(pages, offset, low_mark, table);
        if let Some(step) = step {
            let (accepted, due) = self.steps.entry(step).or_default();
            *accepted += u64::from(their.is_ok());
            *due += 1;
        }
        their.ok()?;
        let [written, has_home] = theirs.2;
        let grown = Grown {
            pages: theirs.1.slice()[..written as usize].to_vec(),
            has_home: has_home == 1,
        };
        self.note_growth(pages, offset, step?, &grown);
        Some(grown)
    }

    fn note_growth(&mut self, pages: &[u8], offset: u64, step: Step, grown: &Grown) {
        let (before, after) = (Layout::read(pages), Layout::read(&grown.pages));
        let holds = |c: &&Component| c.begin <= offset && offset < c.end;
        let over = |c: &Component| c.begin.checked_add(c.extension_size).is_none();
        let over = before.components.iter().find(holds).is_some_and(over);
        let [count, grown_count] = [&before, &after].map(|layout| layout.components.len());
        let emptied = match step {
            Step::FirstGrant | Step::Grant | Step::Forced => grown_count < count,
            Step::Repeat => grown_count == count,
            _ => false,
        };
        let spilled = step == Step::SpillToBareAndGrant && grown_count + 2 == count;
        let events = &mut self.events;
        events.note(!grown.has_home, "grow: accepted, and no home yet");
        events.note(over, "grow: begin + extension size above 2^64");
        events.note(emptied, "grow: extension emptied by a grant");
        events.note(spilled, "grow: next extension emptied by a spill-over");
        let repeated = step == Step::Repeat && count == 16;
        events.note(repeated, "grow: repeat at 16 components");
    }

    /// Counts a call of growth whose buffer lacks one byte.
    pub fn note_short_by_one(&mut self, short: bool) {
        self.events.note(short, "grow: buffer short by one byte");
    }

    /// Compares the answers and the lent memory as it was before, after our call and after theirs.
    fn judge<T: PartialEq>(
        &mut self,
        call: usize,
        pages: &[u8],
        (our, their): (Answer, Answer),
        (before, ours, theirs): (&T, &T, &T),
        inputs: impl Fn() -> String,
    ) {
        let number = their.err().unwrap_or(0) as usize;
        self.answers[call][number] += 1;
        let kept = |answer: Answer, after: &T| answer.is_ok() || after == before;
        if our == their && ours == theirs && kept(our, ours) && kept(their, theirs) {
            return;
        }
        let mut hex = String::new();
        for byte in pages {
            write!(hex, "{byte:02x}").unwrap();
        }
        self.differences.push(format!(
            "{} on {}\n  {}\n  library {our:?}, independent {their:?}, lent memory {}\n  pages {hex}",
            CALLS[call],
            self.about,
            inputs(),
            if ours == theirs { "equal" } else { "different" },
        ));
        if self.differences.len() >= MOST_DIFFERENCES {
            self.finish();
        }
    }

    /// A fact about the inputs or the independent program that must hold too.
    pub fn must(&mut self, holds: bool, what: &str) {
        if !holds {
            self.differences.push(format!("{what} on {}", self.about));
        }
    }

    pub fn count(&self) -> u64 {
        self.answers.iter().flatten().sum()
    }

    pub fn differences(&self) -> usize {
        self.differences.len()
    }

    /// Prints the counts, checks that every number occurred that a call can give, and fails if anything differed.
    pub fn finish(&self) {
        self.print_counts();
        let mut missing = Vec::new();
        for (call, own) in OWN_NUMBERS.iter().enumerate() {
            for number in 0..=20 {
                let possible = number <= 8 || own.contains(&number);
                let occurred = self.answers[call][number] > 0;
                if possible != occurred {
                    missing.push(format!("{} {number}: occurred {occurred}", CALLS[call]));
                }
            }
        }
        for difference in &self.differences {
            println!("DIFFERENCE {difference}");
        }
        assert!(self.differences.is_empty(), "the programs differ");
        assert!(missing.is_empty(), "numbers missing or too many: {missing:?}");
        let missing = self.events.missing();
        assert!(missing.is_empty(), "rare things not met: {missing:?}");
        assert!(self.no_such_page > 0, "no page call asked past the last page");
        let taken = self.steps.values().filter(|(accepted, _)| *accepted > 0);
        assert_eq!(taken.count(), 9, "a step of growth was never taken");
    }

    fn print_counts(&self) {
        println!("compared calls by answer (0 is done):");
        print!("{:>6}", "answer");
        CALLS.iter().for_each(|name| print!("{name:>10}"));
        println!();
        for number in 0..=20 {
            print!("{number:>6}");
            for call in &self.answers {
                match call[number] {
                    0 => print!("{:>10}", "-"),
                    count => print!("{count:>10}"),
                }
            }
            println!();
        }
        let totals = self.answers.iter().map(|call| call.iter().sum::<u64>());
        print!("{:>6}", "all");
        totals.for_each(|total| print!("{total:>10}"));
        println!(
            "\npage calls past the last page of a valid layout: {}",
            self.no_such_page
        );
        self.events.print();
        println!("steps of growth: accepted of those due");
        for (step, (accepted, due)) in &self.steps {
            println!("  {:<20} {accepted:>8} of {due:>8}", format!("{step:?}"));
        }
    }
}
