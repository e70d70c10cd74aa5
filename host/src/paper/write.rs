//! Writing a layout as pages: a component goes into the current page if it fits in 512 bytes, else it starts the next.

use super::component::{COMPONENT_BYTES, Component};
use super::layout::{HEAD_BYTES, Layout, MAX_PAGE_BYTES, MORE, PAGE_MARK};
use super::refusal;
use crate::Answer;

/// The components of one page.
pub struct PageOut<'c, 'a> {
    number: u16,
    more: bool,
    components: &'c [Component<'a>],
    pub length: usize,
}

/// The pages of a layout by the writer's rule.
pub struct PagesOut<'c, 'a> {
    rest: &'c [Component<'a>],
    number: u16,
}

impl<'c, 'a> PagesOut<'c, 'a> {
    pub fn of(components: &'c [Component<'a>]) -> Self {
        PagesOut {
            rest: components,
            number: 0,
        }
    }
}

impl<'c, 'a> Iterator for PagesOut<'c, 'a> {
    type Item = PageOut<'c, 'a>;

    fn next(&mut self) -> Option<PageOut<'c, 'a>> {
        if self.rest.is_empty() {
            return None;
        }
        let mut length = HEAD_BYTES;
        let mut count = 0;
        for component in self.rest {
            if length + component.bytes() > MAX_PAGE_BYTES {
                break;
            }
            length += component.bytes();
            count += 1;
        }
        let (components, rest) = self.rest.split_at(count);
        let number = self.number;
        self.rest = rest;
        self.number += 1;
        Some(PageOut {
            number,
            more: !rest.is_empty(),
            components,
            length,
        })
    }
}

impl PageOut<'_, '_> {
    /// Writes the page to the first bytes of `buffer`, which has room for it.
    pub fn write(&self, generation: u32, buffer: &mut [u8]) {
        let (head, mut rest) = buffer.split_at_mut(HEAD_BYTES);
        head[0..2].copy_from_slice(&PAGE_MARK.to_le_bytes());
        head[2..4].copy_from_slice(&(if self.more { MORE } else { 0 }).to_le_bytes());
        head[4..6].copy_from_slice(&self.number.to_le_bytes());
        head[6..8].copy_from_slice(&(self.components.len() as u16).to_le_bytes());
        head[8..12].copy_from_slice(&generation.to_le_bytes());
        head[12..16].fill(0);
        for component in self.components {
            let (records, after) = rest.split_at_mut(component.bytes());
            let (record, objects) = records.split_at_mut(COMPONENT_BYTES);
            record.copy_from_slice(component.record);
            objects.copy_from_slice(component.objects.as_flattened());
            rest = after;
        }
    }
}

/// Writes one page of the layout to the first bytes of `buffer`, and tells its length.
pub fn page(pages: &[u8], number: u64, buffer: &mut [u8], written: &mut u64) -> Answer {
    let mut layout = Layout::EMPTY;
    layout.read(pages)?;
    let number = usize::try_from(number).map_err(|_| refusal::PAGE_NUMBER)?;
    let page = PagesOut::of(layout.components())
        .nth(number)
        .ok_or(refusal::PAGE_NUMBER)?;
    if buffer.len() < page.length {
        return Err(refusal::BUFFER);
    }
    page.write(layout.generation, buffer);
    *written = page.length as u64;
    Ok(())
}

/// Writes all pages of a layout back to back to the first bytes of `buffer` and gives their length, or gives none if
/// the buffer is too short.
pub fn write_all(components: &[Component], generation: u32, buffer: &mut [u8]) -> Option<usize> {
    let length = PagesOut::of(components).map(|page| page.length).sum();
    let mut rest = buffer.get_mut(..length)?;
    for page in PagesOut::of(components) {
        let (bytes, after) = rest.split_at_mut(page.length);
        page.write(generation, bytes);
        rest = after;
    }
    Some(length)
}
