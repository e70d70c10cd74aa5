//! Runs the cases in the text files of this folder. README.md says how they are written. Each is put to the entry
//! points of the static library and to the independent program; pages that are read, also to the listing program.
//!
//! `cargo test --release --test cases -- WORDS` runs the cases whose file, line and name have these words in them.
//! MOORSICKLE_LIST: the path of the listing program, if it is not where `tools/build list` puts it.

mod answers;
mod layouts;
mod numbers;
mod parse;
mod runs;

use answers::{ask, one_of_each};
use layouts::listed;
use moorsickle_host::{INDEPENDENT, LIBRARY, Program, listing, paper};
use numbers::joined;
use parse::{Case, Fault, Question, Reader};
use std::collections::{BTreeMap, BTreeSet};
use std::ffi::OsString;
use std::path::{Path, PathBuf};
use std::process::ExitCode;
use std::{env, fs};

/// The calls, and the numbers that each can give besides those of the pages, 1 to 8.
const OWN_NUMBERS: [(&str, &[u32]); 5] = [
    ("lookup", &[10, 11]),
    ("back", &[13, 14]),
    ("cut", &[9, 10, 11, 12]),
    ("page", &[20]),
    ("grow", &[10, 15, 16, 17, 18, 19, 20]),
];

/// Definitions for all files.
const COMMON: &str = "common.txt";

fn main() -> ExitCode {
    match run_all() {
        Ok(()) => ExitCode::SUCCESS,
        Err(what) => {
            println!("FAILED  {what}");
            ExitCode::FAILURE
        }
    }
}

fn run_all() -> Result<(), String> {
    let words: Vec<String> = env::args().skip(1).filter(|word| !word.starts_with('-')).collect();
    let mut tally = Tally::new(listing_program()?);
    let mut reader = Reader::default();
    let at = |file: &str, (line, what): Fault| format!("{file}:{line}: {what}");
    reader.common(&text(COMMON)?).map_err(|fault| at(COMMON, fault))?;
    for file in files()? {
        let cases = reader.cases(&text(&file)?).map_err(|fault| at(&file, fault))?;
        for case in cases {
            let place = format!("{file}:{}: {}", case.line, case.name);
            if words.iter().all(|word| place.contains(word)) {
                tally.run(&place, &case);
            }
        }
    }
    if let Some(fault) = reader.unused_common() {
        return Err(at(COMMON, fault));
    }
    tally.finish(words.is_empty())
}

fn folder() -> PathBuf {
    Path::new(env!("CARGO_MANIFEST_DIR")).join("tests/cases")
}

/// The names of the files of cases.
fn files() -> Result<Vec<String>, String> {
    let entries = fs::read_dir(folder()).map_err(|error| format!("{}: {error}", folder().display()))?;
    let names = entries
        .flatten()
        .map(|entry| entry.file_name().to_string_lossy().into_owned());
    let mut files: Vec<String> = names.filter(|name| name.ends_with(".txt") && name != COMMON).collect();
    files.sort();
    Ok(files)
}

fn text(file: &str) -> Result<String, String> {
    fs::read_to_string(folder().join(file)).map_err(|error| format!("{file}: {error}"))
}

fn listing_program() -> Result<OsString, String> {
    let built = || {
        Path::new(env!("CARGO_MANIFEST_DIR"))
            .join("../target/bin/list")
            .into_os_string()
    };
    let program = env::var_os("MOORSICKLE_LIST").unwrap_or_else(built);
    match Path::new(&program).is_file() {
        true => Ok(program),
        false => Err(format!(
            "no listing program at {}: build it by `tools/build list`, or name it in MOORSICKLE_LIST",
            program.display()
        )),
    }
}

/// The cases that were run, and what came out.
struct Tally {
    listing: OsString,
    cases: BTreeMap<&'static str, u64>,
    /// calls and the refusals that they gave
    refusals: BTreeSet<(&'static str, u32)>,
    failed: u64,
}

impl Tally {
    fn new(listing: OsString) -> Tally {
        Tally {
            listing,
            cases: BTreeMap::new(),
            refusals: BTreeSet::new(),
            failed: 0,
        }
    }

    fn run(&mut self, place: &str, case: &Case) {
        *self.cases.entry(call(&case.question)).or_default() += 1;
        let mut failures = Vec::new();
        if matches!(case.question, Question::Read | Question::List) {
            failures.extend(self.list(case));
        }
        if !matches!(case.question, Question::List) {
            failures.extend([&LIBRARY, &INDEPENDENT].map(|program| self.call(program, case)));
        }
        let failures: Vec<String> = failures.into_iter().flatten().collect();
        if !failures.is_empty() {
            self.failed += 1;
            println!("FAILED  {place}");
            failures.iter().for_each(|failure| println!("{failure}"));
        }
    }

    /// Asks a program. Gives what is wrong with its answer, if anything is.
    fn call(&mut self, program: &Program, case: &Case) -> Option<String> {
        let pages = case.run.back_to_back();
        let before = pages.clone();
        let wanted = wanted_back_to_back(case);
        let mut answer = ask(program, &pages, &case.question);
        if let Some(number) = refusal(&answer) {
            self.note(&case.question, number);
        }
        // A case need not show the bytes of a page.
        if matches!(case.question, Question::Page { .. }) {
            answer.truncate(wanted.len());
        }
        if pages != before {
            answer.push(String::from("the pages changed"));
        }
        difference(program.name, &wanted, &answer)
    }

    fn note(&mut self, question: &Question, number: u32) {
        match question {
            Question::Read => one_of_each().iter().for_each(|question| self.note(question, number)),
            question => {
                self.refusals.insert((call(question), number));
            }
        }
    }

    /// Lists the pages, by the listing program and by the independent one.
    fn list(&mut self, case: &Case) -> [Option<String>; 2] {
        let input = case.run.with_lengths();
        let wanted = listed(&case.wanted);
        let ours = listing::printed(&self.listing, &input).unwrap_or_else(|error| format!("{error}\n"));
        let theirs = paper::list(&input);
        [("listing program", ours), ("independent listing", theirs)].map(|(name, printed)| {
            let lines = printed
                .strip_suffix('\n')
                .unwrap_or("no line feed at the end")
                .split('\n');
            let answer: Vec<String> = lines.map(String::from).collect();
            difference(name, &wanted, &answer)
        })
    }

    /// Prints the counts. Fails if a case did, or if a number never came that a call can give.
    fn finish(&self, all: bool) -> Result<(), String> {
        let count: u64 = self.cases.values().sum();
        let counts = self.cases.iter().map(|(call, count)| format!("{call} {count}"));
        println!("{count} cases: {}", joined(counts, ", "));
        let mut missing = Vec::new();
        for (call, own) in OWN_NUMBERS {
            missing.extend((1..=8).chain(own.iter().copied()).map(|number| (call, number)));
        }
        missing.retain(|refusal| !self.refusals.contains(refusal));
        if self.failed > 0 || count == 0 {
            return Err(format!("{} of {count} cases", self.failed));
        }
        if all && !missing.is_empty() {
            return Err(format!("no case has these refusals: {missing:?}"));
        }
        Ok(())
    }
}

/// The word for a question.
fn call(question: &Question) -> &'static str {
    match question {
        Question::Read => "read",
        Question::List => "list",
        Question::Lookup(_) => "lookup",
        Question::Back { .. } => "back",
        Question::Cut { .. } => "cut",
        Question::Page { .. } => "page",
        Question::Write => "write",
        Question::Grow(_) => "grow",
    }
}

/// The answer that is expected of the entry points: of a refusal, only the number.
fn wanted_back_to_back(case: &Case) -> Vec<String> {
    let wanted = case.wanted_back_to_back.as_ref().unwrap_or(&case.wanted);
    match wanted[0].split_once(" page ") {
        Some((refused, _page)) => vec![String::from(refused)],
        None => wanted.clone(),
    }
}

/// The number of a refusal.
fn refusal(answer: &[String]) -> Option<u32> {
    answer[0].strip_prefix("refused ")?.parse().ok()
}

fn difference(name: &str, wanted: &[String], answer: &[String]) -> Option<String> {
    let indented = |lines: &[String]| lines.join("\n            ");
    (wanted != answer).then(|| {
        format!(
            "  {name}\n    wanted  {}\n    got     {}",
            indented(wanted),
            indented(answer)
        )
    })
}
