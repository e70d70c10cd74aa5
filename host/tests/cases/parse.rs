//! Reads files of cases. README.md says how they are written.

use crate::layouts::{layout, lines, words};
use crate::numbers::{joined, number, plain, records, small};
use crate::runs::Run;
use moorsickle_host::draft::{Layout, MAX_LAYOUT_BYTES};
use std::collections::{BTreeMap, BTreeSet};

/// What is asked of a run of pages.
pub enum Question {
    Read,
    List,
    Lookup(u64),
    Back { target: u32, number: u64, byte: u64 },
    Cut { offset: u64, length: u64, room: usize },
    Page { number: u64, room: usize },
    Write,
    Grow(Growth),
}

pub struct Growth {
    pub offset: u64,
    pub mark: u64,
    /// three numbers a record: target, free bytes, next object number
    pub table: Vec<u64>,
    pub room: usize,
}

pub struct Case {
    pub line: usize,
    pub name: String,
    pub question: Question,
    pub run: Run,
    /// the lines of the expected answer, numbers in decimal
    pub wanted: Vec<String>,
    /// the same of pages back to back, if it is another
    pub wanted_back_to_back: Option<Vec<String>>,
}

/// The number of a line and what is wrong with it.
pub type Fault = (usize, String);

/// A line and the indented lines after it.
struct Block {
    line: usize,
    head: String,
    details: Vec<String>,
}

struct Definition {
    line: usize,
    layout: Layout,
    run: Run,
}

#[derive(Default)]
pub struct Reader {
    /// what every file may use, and what the file that is read now defines
    common: BTreeMap<String, Definition>,
    own: BTreeMap<String, Definition>,
    used: BTreeSet<String>,
    /// the cases of this file so far
    names: BTreeSet<String>,
    /// the layout that the last case of growth left
    last: Option<Run>,
}

/// Divides the text. A line indented by two spaces belongs to the last line that is not indented. A line indented by
/// four goes on with the line before it.
fn blocks(text: &str) -> Result<Vec<Block>, Fault> {
    let mut blocks: Vec<Block> = Vec::new();
    for (line, text) in (1..).zip(text.lines()) {
        let trimmed = text.trim();
        let indent = text.len() - text.trim_start().len();
        match (blocks.last_mut(), indent) {
            _ if trimmed.is_empty() || trimmed.starts_with('#') => {}
            (_, 0) => blocks.push(Block {
                line,
                head: String::from(trimmed),
                details: Vec::new(),
            }),
            (Some(block), 2) => block.details.push(String::from(trimmed)),
            (Some(Block { head, details, .. }), 4) => {
                let before = details.last_mut().unwrap_or(head);
                *before = format!("{before} {trimmed}");
            }
            _ => {
                return Err((
                    line,
                    String::from("indented, but not by two or four spaces after a line"),
                ));
            }
        }
    }
    Ok(blocks)
}

impl Reader {
    /// Reads a file that only defines, for all others.
    pub fn common(&mut self, text: &str) -> Result<(), Fault> {
        for block in blocks(text)? {
            self.define(&block).map_err(|what| (block.line, what))?;
        }
        self.common.append(&mut self.own);
        Ok(())
    }

    /// The cases of a file.
    pub fn cases(&mut self, text: &str) -> Result<Vec<Case>, Fault> {
        self.own.clear();
        self.names.clear();
        self.last = None;
        let mut cases = Vec::new();
        for block in blocks(text)? {
            let at_line = |what| (block.line, what);
            if block.head.starts_with("define ") {
                self.define(&block).map_err(at_line)?;
            } else {
                cases.push(self.case(&block).map_err(at_line)?);
            }
        }
        match self.unused(&self.own) {
            Some(fault) => Err(fault),
            None if cases.is_empty() => Err((1, String::from("there is no case in this file"))),
            None => Ok(cases),
        }
    }

    /// A definition for all files that none has used.
    pub fn unused_common(&self) -> Option<Fault> {
        self.unused(&self.common)
    }

    fn unused(&self, definitions: &BTreeMap<String, Definition>) -> Option<Fault> {
        let mut definitions = definitions.iter();
        let (name, definition) = definitions.find(|(name, _)| !self.used.contains(*name))?;
        Some((definition.line, format!("no case uses `{name}`")))
    }

    /// `define NAME`: a layout, paged by the writer's rule. `define pages NAME`: paged by its lines `next page` alone.
    fn define(&mut self, block: &Block) -> Result<(), String> {
        let (layout, breaks) = layout(&block.details)?;
        let (name, pages) = match words(&block.head)[..] {
            ["define", "pages", name] => (name, layout.pages_broken_at(&breaks)),
            ["define", name] if breaks.is_empty() => (name, layout.pages()),
            ["define", _] => return Err(String::from("`next page` is for `define pages NAME`")),
            _ => return Err(String::from("not `define NAME` or `define pages NAME`")),
        };
        if self.common.contains_key(name) || self.own.contains_key(name) || ["nothing", "last"].contains(&name) {
            return Err(format!("`{name}` has a meaning already"));
        }
        self.used.remove(name);
        let definition = Definition {
            line: block.line,
            run: Run::new(pages.iter().map(|page| page.bytes())),
            layout,
        };
        self.own.insert(String::from(name), definition);
        Ok(())
    }

    fn definition(&mut self, name: &str) -> Result<&Definition, String> {
        self.used.insert(String::from(name));
        let definition = self.own.get(name).or(self.common.get(name));
        definition.ok_or(format!("`{name}` is not defined"))
    }

    /// `NAME: QUESTION in PAGES = ANSWER`, and the further lines of the answer.
    fn case(&mut self, block: &Block) -> Result<Case, String> {
        let (name, text) = block.head.split_once(": ").ok_or("no `NAME: ` at its begin")?;
        let (asked, answer) = text.split_once(" = ").ok_or("no ` = ` and expected answer")?;
        if !self.names.insert(String::from(name)) {
            return Err(format!("another case has the name `{name}`"));
        }
        let (asked, run) = match asked.split_once(" in ") {
            Some(parts) => parts,
            None => asked.split_once(' ').ok_or("no pages to ask about")?,
        };
        let question = question(&words(asked))?;
        let run = self.run(run)?;
        if run.is_listed_only() && !matches!(question, Question::List) {
            return Err(String::from("`length` and `input` are only for `list`"));
        }
        let (answer, other) = match answer.split_once(", back to back ") {
            Some((answer, other)) if matches!(question, Question::Read) => (answer, Some(other)),
            _ => (answer, None),
        };
        Ok(Case {
            line: block.line,
            name: String::from(name),
            wanted: self.wanted(&question, &run, answer, &block.details)?,
            wanted_back_to_back: other.map(|other| self.reading(other, &[])).transpose()?,
            question,
            run,
        })
    }

    /// `PART then PART .. with CHANGE, CHANGE ..`
    fn run(&mut self, text: &str) -> Result<Run, String> {
        let (parts, changes) = match text.split_once(" with ") {
            Some((parts, changes)) => (parts, Some(changes)),
            None => (text, None),
        };
        let mut run = Run::default();
        for part in parts.split(" then ") {
            run = run.then(self.part(part)?);
        }
        match changes {
            Some(changes) => run.changed(changes),
            None => Ok(run),
        }
    }

    /// `NAME`, `NAME pages 0 2 ..`, `bytes HEX`, `last` or `nothing`
    fn part(&mut self, text: &str) -> Result<Run, String> {
        match words(text)[..] {
            ["nothing"] => Ok(Run::default()),
            ["last"] => self.last.clone().ok_or(String::from("no case of growth comes before")),
            ["bytes", bytes] => Run::of_bytes(bytes),
            [name] => Ok(self.definition(name)?.run.clone()),
            [name, "pages", ref places @ ..] => {
                let places: Vec<usize> = places.iter().map(|place| small(place)).collect::<Result<_, _>>()?;
                self.definition(name)?.run.some(&places)
            }
            _ => Err(format!("`{text}` is not a run of pages")),
        }
    }

    /// The lines of the expected answer.
    fn wanted(
        &mut self,
        question: &Question,
        run: &Run,
        answer: &str,
        details: &[String],
    ) -> Result<Vec<String>, String> {
        let mut wanted = vec![plain(answer)];
        match question {
            Question::Read | Question::List => return self.reading(answer, details),
            Question::Grow(_) => wanted.extend(self.growth(run, details)?),
            // The bytes of a page, in lines of any length.
            Question::Page { .. } if !details.is_empty() => wanted.push(details.join(" ")),
            _ => wanted.extend(details.iter().map(|line| plain(line))),
        }
        Ok(wanted)
    }

    /// `refused ..`, the name of a layout, or a layout.
    fn reading(&mut self, answer: &str, details: &[String]) -> Result<Vec<String>, String> {
        if !details.is_empty() {
            let all = [&[String::from(answer)], details].concat();
            return Ok(lines(&layout(&all)?.0));
        }
        match answer.starts_with("refused ") {
            true => Ok(vec![plain(answer)]),
            false => Ok(lines(&self.definition(answer)?.layout)),
        }
    }

    /// The layout and the table after a change; nothing if there was none.
    fn growth(&mut self, run: &Run, details: &[String]) -> Result<Vec<String>, String> {
        let Some((table, grown)) = details.split_last() else {
            self.last = Some(run.clone());
            return Ok(Vec::new());
        };
        let ["table", ref table @ ..] = words(table)[..] else {
            return Err(String::from("the last line is not `table` and its records"));
        };
        let grown = layout(grown)?.0;
        self.last = Some(Run::new(grown.pages().iter().map(|page| page.bytes())));
        let mut wanted = lines(&grown);
        wanted.push(table_line(&table_of(table)?));
        Ok(wanted)
    }
}

fn question(words: &[&str]) -> Result<Question, String> {
    Ok(match *words {
        ["read"] => Question::Read,
        ["list"] => Question::List,
        ["write"] => Question::Write,
        ["lookup", offset] => Question::Lookup(number(offset)?),
        ["back", object, "byte", byte] => {
            let object = &records(&[object], 2)?[0];
            Question::Back {
                target: object[0].try_into().map_err(|_| "too large a target")?,
                number: object[1],
                byte: number(byte)?,
            }
        }
        ["cut", offset, length, "into", room] => Question::Cut {
            offset: number(offset)?,
            length: number(length)?,
            room: small(room)?,
        },
        ["page", page, "into", room] => Question::Page {
            number: number(page)?,
            room: small(room)?,
        },
        ["grow", ref words @ .., "into", room] => Question::Grow(growth(words, small(room)?)?),
        ["grow", ref words @ ..] => Question::Grow(growth(words, MAX_LAYOUT_BYTES)?),
        _ => return Err(format!("`{}` is not a question", words.join(" "))),
    })
}

fn growth(words: &[&str], room: usize) -> Result<Growth, String> {
    let [offset, "mark", mark, "table", ref table @ ..] = *words else {
        return Err(String::from("not `grow OFFSET mark MARK table RECORDS`"));
    };
    Ok(Growth {
        offset: number(offset)?,
        mark: number(mark)?,
        table: table_of(table)?,
        room,
    })
}

/// The numbers of a free table: its records, or `none`.
fn table_of(words: &[&str]) -> Result<Vec<u64>, String> {
    match *words {
        [] => Err(String::from("a table has records, or is `none`")),
        ["none"] => Ok(Vec::new()),
        _ => Ok(records(words, 3)?.concat()),
    }
}

/// The line of a free table.
pub fn table_line(table: &[u64]) -> String {
    let records = table.chunks(3).map(|record| joined(record, ":"));
    format!("table {}", joined(records, " "))
}
