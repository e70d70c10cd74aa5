//! Runs of pages: those of a definition or some of them, and single fields of their records changed.

use crate::layouts::words;
use crate::numbers::{hex, signed, small};
use moorsickle_host::draft::{COMPONENT_BYTES, HEAD_BYTES, INIT, OBJECT_BYTES};
use std::ops::Range;

/// A field of a record: its name, its place after the record's begin, and how many bytes it has.
type Field = (&'static str, usize, usize);

const HEAD: [Field; 6] = [
    ("mark", 0, 2),
    ("flags", 2, 2),
    ("number", 4, 2),
    ("components", 6, 2),
    ("generation", 8, 4),
    ("zero", 12, 4),
];
const COMPONENT: [Field; 9] = [
    ("mark", 0, 2),
    ("flags", 2, 2),
    ("id", 4, 2),
    ("stripe-count", 6, 2),
    ("stripe-size", 8, 4),
    ("first-target", 12, 4),
    ("begin", 16, 8),
    ("end", 24, 8),
    ("extension-size", 32, 8),
];
const OBJECT: [Field; 4] = [("mark", 0, 2), ("zero", 2, 2), ("target", 4, 4), ("number", 8, 8)];

#[derive(Clone, Default)]
struct Page {
    bytes: Vec<u8>,
    /// what the listing's input says before it, if not how many bytes it has
    length: Option<u16>,
}

/// What is handed to a call.
#[derive(Clone, Default)]
pub struct Run {
    pages: Vec<Page>,
    /// bytes after the last page
    rest: Vec<u8>,
    /// the listing's input ends after so many bytes
    end: Option<usize>,
}

impl Run {
    pub fn new(pages: impl IntoIterator<Item = Vec<u8>>) -> Run {
        let page = |bytes| Page { bytes, length: None };
        Run {
            pages: pages.into_iter().map(page).collect(),
            ..Run::default()
        }
    }

    /// The pages back to back, as the entry points take them.
    pub fn back_to_back(&self) -> Vec<u8> {
        let pages = self.pages.iter().flat_map(|page| &page.bytes);
        pages.chain(&self.rest).copied().collect()
    }

    /// Each page after its length, as the listing takes them.
    pub fn with_lengths(&self) -> Vec<u8> {
        let mut bytes = Vec::new();
        for page in &self.pages {
            let length = page.length.unwrap_or(page.bytes.len() as u16);
            bytes.extend(length.to_le_bytes());
            bytes.extend(&page.bytes);
        }
        bytes.extend(&self.rest);
        bytes.truncate(self.end.unwrap_or(bytes.len()));
        bytes
    }

    /// Has it changes that only the listing's input can show?
    pub fn is_listed_only(&self) -> bool {
        self.end.is_some() || self.pages.iter().any(|page| page.length.is_some())
    }

    /// The run, and after it the other.
    pub fn then(mut self, other: Run) -> Run {
        self.pages.extend(other.pages);
        self.rest.extend(other.rest);
        self
    }

    /// The pages at these places of the run.
    pub fn some(&self, places: &[usize]) -> Result<Run, String> {
        let page = |place: &usize| self.pages.get(*place).cloned().ok_or(format!("no page {place}"));
        let pages = places.iter().map(page).collect::<Result<_, _>>()?;
        Ok(Run {
            pages,
            ..Run::default()
        })
    }

    /// Bytes that are no page.
    pub fn of_bytes(word: &str) -> Result<Run, String> {
        let rest = hex(word)?;
        Ok(Run { rest, ..Run::default() })
    }

    /// The run with these changes, `RECORD FIELD VALUE` each; a change without a record is of the record before.
    /// Records are counted as they lie in the unchanged run.
    pub fn changed(&self, changes: &str) -> Result<Run, String> {
        let mut run = self.clone();
        let mut record = Vec::new();
        for change in changes.split(", ") {
            let mut words = words(change);
            let [field, value] = words.split_off(words.len().saturating_sub(2))[..] else {
                return Err(format!("`{change}` is not a change"));
            };
            if !words.is_empty() {
                record = words;
            }
            self.change(&mut run, &record, field, value)
                .map_err(|what| format!("{what} in `{change}`"))?;
        }
        Ok(run)
    }

    fn change(&self, run: &mut Run, record: &[&str], field: &str, value: &str) -> Result<(), String> {
        match (record, field) {
            (["input"], "cut-to") => run.end = Some(small(value)?),
            (["page", page], "cut-to") => {
                let bytes = &mut run.page(page)?.bytes;
                let length = Some(small(value)?).filter(|length| *length < bytes.len());
                bytes.truncate(length.ok_or("nothing to cut")?);
            }
            (["page", page], "plus") => run.page(page)?.bytes.extend(hex(value)?),
            (["page", page], "length") => run.page(page)?.length = Some(small(value)?),
            (["page", page], _) => set(run.page(page)?, 0, &HEAD, field, value)?,
            (["component", component], _) => {
                let (page, records) = self.component(component)?;
                set(&mut run.pages[page], records.start, &COMPONENT, field, value)?;
            }
            (["component", component, "object", object], _) => {
                let (page, records) = self.component(component)?;
                let mut objects = records.skip(COMPONENT_BYTES).step_by(OBJECT_BYTES);
                let at = small::<usize>(object)?
                    .checked_sub(1)
                    .and_then(|before| objects.nth(before));
                let at = at.ok_or(format!("no object {object}"))?;
                set(&mut run.pages[page], at, &OBJECT, field, value)?;
            }
            _ => return Err(String::from("no such change")),
        }
        Ok(())
    }

    fn page(&mut self, page: &str) -> Result<&mut Page, String> {
        let place: usize = small(page)?;
        self.pages.get_mut(place).ok_or(format!("no page {page}"))
    }

    /// The page of a component, and where in it its records lie. Components are counted from 1, over all pages.
    fn component(&self, component: &str) -> Result<(usize, Range<usize>), String> {
        let mut left: usize = small(component)?;
        for (page, Page { bytes, .. }) in self.pages.iter().enumerate() {
            let mut at = HEAD_BYTES;
            while let Some(record) = bytes.get(at..at + COMPONENT_BYTES) {
                let objects = if record[2] & INIT as u8 == 0 { 0 } else { record[6] };
                let end = at + COMPONENT_BYTES + usize::from(objects) * OBJECT_BYTES;
                left = left.wrapping_sub(1);
                if left == 0 {
                    return Ok((page, at..end));
                }
                at = end;
            }
        }
        Err(format!("no component {component}"))
    }
}

/// Sets a field of the record that begins at this place of a page.
fn set(page: &mut Page, at: usize, fields: &[Field], field: &str, value: &str) -> Result<(), String> {
    let known = fields.iter().find(|known| known.0 == field);
    let (_, place, width) = *known.ok_or(format!("no field `{field}`"))?;
    let bytes = match field {
        "mark" => hex(value)?,
        "first-target" => signed(value)?.to_le_bytes().to_vec(),
        _ => small::<u64>(value)?.to_le_bytes().to_vec(),
    };
    if bytes.iter().skip(width).any(|byte| *byte != 0) || bytes.len() < width {
        return Err(format!("`{value}` does not have {width} bytes"));
    }
    let begin = at + place;
    let cells = page.bytes.get_mut(begin..begin + width);
    cells.ok_or("no such record")?.copy_from_slice(&bytes[..width]);
    Ok(())
}
