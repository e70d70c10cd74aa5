//! Puts a question to a program and gives the answer as the lines that a case has. The memory that is lent lies between
//! guards and is filled; the answer also says so if anything else was written than the results.

use crate::layouts::lines;
use crate::numbers::joined;
use crate::parse::{Growth, Question, table_line};
use moorsickle_host::draft::{Layout, MAX_LAYOUT_BYTES, MAX_PAGE_BYTES};
use moorsickle_host::{Program, paper};

const FILLER: u64 = 0xA5A5_A5A5_A5A5_A5A5;
const FILLER_BYTE: u8 = 0xA5;
/// Cells before and after lent memory.
const GUARD: usize = 16;
/// More pieces than these are not shown one by one.
const MOST_SHOWN: usize = 8;
const MAX_PAGES: u64 = 16;
/// The last refusal of the pages themselves. All calls give those alike.
const LAST_OF_PAGES: u32 = 8;

/// Lent memory between guards.
struct Lent<T> {
    filler: T,
    cells: Vec<T>,
}

impl<T: Copy + PartialEq> Lent<T> {
    fn new(length: usize, filler: T) -> Lent<T> {
        let cells = vec![filler; length + 2 * GUARD];
        Lent { filler, cells }
    }

    fn slice(&mut self) -> &mut [T] {
        let end = self.cells.len() - GUARD;
        &mut self.cells[GUARD..end]
    }

    /// The first cells, if all others are as they were.
    fn first(&self, count: usize) -> Option<&[T]> {
        let (before, rest) = self.cells.split_at(GUARD);
        let (first, after) = rest.split_at_checked(count)?;
        let kept = before.iter().chain(after).all(|cell| *cell == self.filler);
        (kept && after.len() >= GUARD).then_some(first)
    }
}

fn refused(number: u32, kept: bool) -> Vec<String> {
    let but = if kept { "" } else { ", but lent memory changed" };
    vec![format!("refused {number}{but}")]
}

fn changed_too_much() -> Vec<String> {
    vec![String::from("done, but other memory than the results changed")]
}

/// The answer of one call.
pub fn ask(program: &Program, pages: &[u8], question: &Question) -> Vec<String> {
    match *question {
        Question::Read | Question::List => read(program, pages),
        Question::Lookup(offset) => lookup(program, pages, offset),
        Question::Back { target, number, byte } => back(program, pages, target, number, byte),
        Question::Cut { offset, length, room } => cut(program, pages, (offset, length), room),
        Question::Page { number, room } => page(program, pages, number, room),
        Question::Write => match written(program, pages) {
            Ok(pages) => vec![joined(pages.iter().map(Vec::len), " ")],
            Err(answer) => answer,
        },
        Question::Grow(ref growth) => grow(program, pages, growth),
    }
}

fn lookup(program: &Program, pages: &[u8], offset: u64) -> Vec<String> {
    let mut home = [FILLER; 3];
    match (program.lookup)(pages, offset, &mut home) {
        Ok(()) => vec![format!("home {} {} {}", home[0], home[1], home[2])],
        Err(number) => refused(number, home == [FILLER; 3]),
    }
}

fn back(program: &Program, pages: &[u8], target: u32, number: u64, byte: u64) -> Vec<String> {
    let mut offset = FILLER;
    match (program.back)(pages, target, number, byte, &mut offset) {
        Ok(()) => vec![format!("byte {offset}")],
        Err(number) => refused(number, offset == FILLER),
    }
}

fn cut(program: &Program, pages: &[u8], (offset, length): (u64, u64), room: usize) -> Vec<String> {
    let mut lent = Lent::new(room, FILLER);
    let mut count = FILLER;
    if let Err(number) = (program.cut)(pages, offset, length, lent.slice(), &mut count) {
        return refused(number, count == FILLER && lent.first(0).is_some());
    }
    let Some(numbers) = lent.first(count.saturating_mul(5) as usize) else {
        return changed_too_much();
    };
    let mut answer = vec![format!("{count} pieces")];
    let pieces: Vec<String> = numbers.chunks(5).map(|piece| joined(piece, " ")).collect();
    match pieces.as_slice() {
        [first, .., last] if pieces.len() > MOST_SHOWN => {
            answer.push(format!("first {first}"));
            answer.push(format!("last {last}"));
            answer.push(format!("sum {}", check_sum(numbers)));
        }
        _ => answer.extend(pieces),
    }
    answer
}

/// The sum of the first number, of the first two, and so on, added up, modulo 2^64.
fn check_sum(numbers: &[u64]) -> u64 {
    let (mut sum, mut sums) = (0_u64, 0_u64);
    for number in numbers {
        sum = sum.wrapping_add(*number);
        sums = sums.wrapping_add(sum);
    }
    sums
}

fn page(program: &Program, pages: &[u8], number: u64, room: usize) -> Vec<String> {
    match page_bytes(program, pages, number, room) {
        Ok(bytes) => vec![format!("written {}", bytes.len()), hex(&bytes)],
        Err(answer) => answer,
    }
}

/// A page that was written, which must be that of the draft.
fn page_bytes(program: &Program, pages: &[u8], number: u64, room: usize) -> Result<Vec<u8>, Vec<String>> {
    let mut lent = Lent::new(room, FILLER_BYTE);
    let mut length = FILLER;
    if let Err(number) = (program.page)(pages, number, lent.slice(), &mut length) {
        return Err(refused(number, length == FILLER && lent.first(0).is_some()));
    }
    let bytes = lent.first(length as usize).ok_or_else(changed_too_much)?;
    let drafts = Layout::read(pages).pages();
    match drafts.get(number as usize) {
        Some(draft) if draft.bytes() == bytes => Ok(bytes.to_vec()),
        _ => Err(vec![
            String::from("written, but other bytes than the layout's page has"),
            hex(bytes),
        ]),
    }
}

/// All pages, up to the one that is refused as there is none.
fn written(program: &Program, pages: &[u8]) -> Result<Vec<Vec<u8>>, Vec<String>> {
    let mut written = Vec::new();
    for number in 0..=MAX_PAGES {
        match page_bytes(program, pages, number, MAX_PAGE_BYTES) {
            Ok(bytes) => written.push(bytes),
            Err(answer) if number > 0 && answer == refused(4, true) => break,
            Err(answer) => return Err(answer),
        }
    }
    Ok(written)
}

/// What all five calls say of the pages: the refusal, or the layout as it is written again.
fn read(program: &Program, pages: &[u8]) -> Vec<String> {
    let answers = one_of_each().map(|question| ask(program, pages, &question).swap_remove(0));
    let of_pages = |answer: &String| (1..=LAST_OF_PAGES).any(|number| *answer == format!("refused {number}"));
    if of_pages(&answers[0]) && answers.iter().all(|answer| *answer == answers[0]) {
        return vec![answers[0].clone()];
    }
    if answers.iter().any(of_pages) {
        return vec![format!("the five calls answer {answers:?}")];
    }
    match written(program, pages) {
        Ok(pages) => shown(&pages.concat()),
        Err(answer) => answer,
    }
}

/// A call of each kind.
pub fn one_of_each() -> [Question; 5] {
    let growth = Growth {
        offset: 0,
        mark: 0,
        table: Vec::new(),
        room: MAX_LAYOUT_BYTES,
    };
    [
        Question::Lookup(0),
        Question::Back {
            target: 0,
            number: 0,
            byte: 0,
        },
        Question::Cut {
            offset: 0,
            length: 1,
            room: 5,
        },
        Question::Page {
            number: 0,
            room: MAX_PAGE_BYTES,
        },
        Question::Grow(growth),
    ]
}

fn grow(program: &Program, pages: &[u8], growth: &Growth) -> Vec<String> {
    let table = growth.table.as_slice();
    let mut lent_table = Lent::new(table.len(), FILLER);
    lent_table.slice().copy_from_slice(table);
    let mut grown = Lent::new(growth.room, FILLER_BYTE);
    let mut result = [FILLER; 2];
    let (lent, room) = (lent_table.slice(), grown.slice());
    let answer = (program.grow)(pages, growth.offset, growth.mark, lent, room, &mut result);
    let after = lent_table.first(table.len());
    if let Err(number) = answer {
        let kept = after == Some(table) && grown.first(0).is_some() && result == [FILLER; 2];
        return refused(number, kept);
    }
    let (Some(after), Some(grown)) = (after, grown.first(result[0] as usize)) else {
        return changed_too_much();
    };
    let home = match result[1] {
        0 => String::from("no home"),
        1 => String::from("home"),
        other => format!("home {other}"),
    };
    if after == table && grown == Layout::read(pages).bytes() {
        return vec![format!("{home}, unchanged")];
    }
    let mut answer = vec![format!("{home}, changed")];
    answer.extend(shown(grown));
    answer.push(table_line(after));
    answer
}

/// The lines of the layout of pages that a call has written; they must be paged by the writer's rule.
fn shown(pages: &[u8]) -> Vec<String> {
    let unreadable = matches!(paper::lookup(pages, 0, &mut [0; 3]), Err(1..=LAST_OF_PAGES));
    if unreadable || Layout::read(pages).bytes() != pages {
        return vec![hex(pages)];
    }
    lines(&Layout::read(pages))
}

fn hex(bytes: &[u8]) -> String {
    joined(bytes.iter().map(|byte| format!("{byte:02X}")), " ")
}
