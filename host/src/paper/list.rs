//! The listing: pages in, each after its length, text out.

use super::component::Component;
use super::layout::{Layout, MAX_PAGE_BYTES};
use super::refusal;
use std::fmt::Write;

/// The text for this input; each line ends with a line feed.
pub fn list(input: &[u8]) -> String {
    let mut layout = Layout::EMPTY;
    match gather(&mut layout, input) {
        Ok(()) => text(&layout),
        Err((number, page)) => format!("refused {number} page {page}\n"),
    }
}

/// Gathers the layout from pages, each after its length. A refusal is a number and a page.
fn gather<'a>(layout: &mut Layout<'a>, mut input: &'a [u8]) -> Result<(), (u32, usize)> {
    while !input.is_empty() {
        let page = layout.pages;
        input = take_page(layout, input).map_err(|number| (number, page))?;
    }
    if layout.complete {
        Ok(())
    } else {
        Err((refusal::NOT_COMPLETE, layout.pages))
    }
}

/// Takes the page at the start of the input and gives the input after it.
fn take_page<'a>(layout: &mut Layout<'a>, input: &'a [u8]) -> Result<&'a [u8], u32> {
    if layout.complete {
        return Err(refusal::AFTER_LAST_PAGE);
    }
    let (bytes, rest) = split_page(input).ok_or(refusal::FORM)?;
    let page = layout.look_at(bytes)?;
    if page.length != bytes.len() {
        return Err(refusal::FORM);
    }
    layout.take(&page)?;
    if layout.components.has_object_twice() {
        return Err(refusal::DISTINCTNESS);
    }
    Ok(rest)
}

/// The bytes of the page at the start of the input, without its length, and the input after them.
fn split_page(input: &[u8]) -> Option<(&[u8], &[u8])> {
    let (length, rest) = input.split_first_chunk()?;
    let length = usize::from(u16::from_le_bytes(*length));
    if length > MAX_PAGE_BYTES {
        return None;
    }
    rest.split_at_checked(length)
}

fn text(layout: &Layout) -> String {
    let mut text = String::new();
    let count = layout.components().len();
    writeln!(text, "layout {} components {count}", layout.generation).unwrap();
    for component in layout.components() {
        add_line(&mut text, component);
    }
    text
}

fn add_line(text: &mut String, component: &Component) {
    let (kind, size) = match (component.is_init(), component.is_extension()) {
        (true, _) => ("init", component.stripe_size()),
        (_, true) => ("extension", component.extension_size()),
        _ => ("bare", component.stripe_size()),
    };
    write!(text, "{} {} ", component.id(), component.begin()).unwrap();
    match component.end() {
        u64::MAX => text.push_str("eof"),
        end => write!(text, "{end}").unwrap(),
    }
    let stripes = component.stripe_count();
    writeln!(text, " {kind} {stripes} {size} {}", component.first_target()).unwrap();
}
