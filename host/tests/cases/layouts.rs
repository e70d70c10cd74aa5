//! Layouts as the cases write them: the lines of document 01's listing, and after each component its object records.

use crate::numbers::{number, records, signed, small};
use moorsickle_host::draft::{Component, EOF, EXTENSION, INIT, Layout, Object};

/// The layout of these lines. Also gives the places of the components that come after a line `next page`.
pub fn layout(lines: &[String]) -> Result<(Layout, Vec<usize>), String> {
    let (head, lines) = lines.split_first().ok_or("a layout has no lines")?;
    let (generation, count) = match words(head)[..] {
        ["layout", generation, "components", count] => (small(generation)?, small(count)?),
        _ => return Err(format!("`{head}` is not `layout GENERATION components COUNT`")),
    };
    let (mut components, mut breaks) = (Vec::new(), Vec::new());
    for line in lines {
        if line == "next page" {
            breaks.push(components.len());
        } else {
            components.push(component(line).map_err(|what| format!("{what} in `{line}`"))?);
        }
    }
    if components.len() != count {
        return Err(format!("{} components come after `{head}`", components.len()));
    }
    let layout = Layout { generation, components };
    Ok((layout, breaks))
}

/// A component: id, begin, end, kind, stripe count, size, first target; if it is init, `on` and its object records.
fn component(line: &str) -> Result<Component, String> {
    let (fields, objects) = line.split_once(" on ").unwrap_or((line, ""));
    let [id, begin, end, kind, stripe_count, size, first_target] = words(fields)[..] else {
        return Err(String::from("not seven words"));
    };
    let (flags, stripe_size, extension_size) = match kind {
        "init" => (INIT, small(size)?, 0),
        "bare" => (0, small(size)?, 0),
        "extension" => (EXTENSION, 0, number(size)?),
        _ => return Err(format!("unknown kind `{kind}`")),
    };
    let stripe_count = small(stripe_count)?;
    let objects = objects_of(&words(objects))?;
    let object_count = if flags == INIT { usize::from(stripe_count) } else { 0 };
    if objects.len() != object_count {
        return Err(format!("{} object records", objects.len()));
    }
    Ok(Component {
        flags,
        id: small(id)?,
        stripe_count,
        stripe_size,
        first_target: signed(first_target)?,
        begin: number(begin)?,
        end: number(end)?,
        extension_size,
        objects,
    })
}

fn objects_of(words: &[&str]) -> Result<Vec<Object>, String> {
    let object = |record: Vec<u64>| {
        let target = record[0].try_into().map_err(|_| "too large a target")?;
        let number = record[1];
        Ok(Object { target, number })
    };
    records(words, 2)?.into_iter().map(object).collect()
}

/// The lines of a layout, with each number in decimal.
pub fn lines(layout: &Layout) -> Vec<String> {
    let count = layout.components.len();
    let mut lines = vec![format!("layout {} components {count}", layout.generation)];
    lines.extend(layout.components.iter().map(component_line));
    lines
}

fn component_line(component: &Component) -> String {
    let (kind, size) = match (component.is_init(), component.is_extension()) {
        (true, _) => ("init", component.stripe_size.into()),
        (_, true) => ("extension", component.extension_size),
        _ => ("bare", component.stripe_size.into()),
    };
    let end = match component.end {
        EOF => String::from("eof"),
        end => end.to_string(),
    };
    let Component {
        id,
        begin,
        stripe_count,
        first_target,
        objects,
        ..
    } = component;
    let mut line = format!("{id} {begin} {end} {kind} {stripe_count} {size} {first_target}");
    for (place, object) in objects.iter().enumerate() {
        let word = if place == 0 { " on" } else { "" };
        line += &format!("{word} {}:{}", object.target, object.number);
    }
    line
}

/// The same lines as the listing prints them, without object records.
pub fn listed(lines: &[String]) -> Vec<String> {
    let listed = |line: &String| line.split(" on ").take(1).collect();
    lines.iter().map(listed).collect()
}

pub fn words(text: &str) -> Vec<&str> {
    text.split_whitespace().collect()
}
