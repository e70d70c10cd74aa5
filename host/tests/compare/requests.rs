//! Random arguments of the calls: offsets, requests, rooms, buffers and free tables.

use crate::layouts::{MAX_TARGET, any_object};
use moorsickle_host::draft::{Component, Layout, Object};
use moorsickle_host::random::Random;

/// Every border of a component, and the bytes before and after.
pub fn borders(layout: &Layout) -> Vec<u64> {
    let mut offsets = vec![0, 1, u64::MAX - 1, u64::MAX];
    for component in &layout.components {
        let end = component.end;
        offsets.extend([end.wrapping_sub(1), end, end.wrapping_add(1)]);
    }
    offsets
}

/// An offset at or next to a border, at or next to a multiple of a stripe size, in a component, or anywhere.
pub fn offset(random: &mut Random, layout: &Layout) -> u64 {
    let component = &layout.components[random.index(layout.components.len())];
    let near = random.pick(&[u64::MAX, 0, 1]);
    match random.below(8) {
        0 => component.end.wrapping_add(near),
        1 => component.begin.wrapping_add(near),
        2..=4 => unit_begin(random, component).wrapping_add(near),
        5 => inside(random, component),
        6 => random.of_any_size(),
        _ => u64::MAX - random.below(3),
    }
}

fn inside(random: &mut Random, component: &Component) -> u64 {
    random.between(component.begin, component.end)
}

/// A multiple of the stripe size at or before a byte of the component.
fn unit_begin(random: &mut Random, component: &Component) -> u64 {
    let size = u64::from(component.stripe_size).max(1);
    inside(random, component) / size * size
}

/// A request: offset and length.
pub fn request(random: &mut Random, layout: &Layout) -> (u64, u64) {
    let component = &layout.components[random.index(layout.components.len())];
    if random.chance(35) {
        return units(random, component);
    }
    let offset = offset(random, layout);
    let other = self::offset(random, layout);
    let length = match random.below(12) {
        0 => 0,
        1 => 1,
        2 => random.of_any_size(),
        3 => u64::MAX,
        4 => u64::MAX - offset,
        5 => (u64::MAX - offset).wrapping_add(1),
        6 => component.end.wrapping_sub(offset),
        7 => component.end.wrapping_sub(offset).wrapping_add(1),
        8 => random.between(0, 3_000_000),
        _ => return (offset.min(other), offset.max(other) - offset.min(other)),
    };
    (offset, length)
}

/// A request of a chosen number of units of the component, which may be cut off or lengthened by some bytes.
fn units(random: &mut Random, component: &Component) -> (u64, u64) {
    let size = u64::from(component.stripe_size).max(1);
    let units = match random.below(4) {
        0 => random.between(1, 20),
        1 => random.between(254, 259),
        _ => random.between(1, 300),
    };
    let first = (component.begin / size).saturating_add(random.below(3));
    let offset = match random.below(3) {
        0 => component.begin,
        1 => first.wrapping_mul(size).wrapping_add(random.below(3)),
        _ => unit_begin(random, component),
    };
    let length = units.wrapping_mul(size);
    (offset, length.wrapping_add(random.pick(&[u64::MAX, 0, 0, 1])))
}

/// A room for a request that has this many pieces, counted in numbers.
pub fn room(random: &mut Random, pieces: Option<u64>) -> usize {
    let exact = 5 * pieces.unwrap_or(256);
    let room = match random.below(8) {
        0 => exact,
        1 => exact.saturating_sub(1),
        2 => exact + random.between(1, 9),
        3 => random.below(12),
        4 => random.between(1275, 1290),
        5 => random.below(1400),
        _ => 1280,
    };
    room as usize
}

/// A buffer for a result of this many bytes.
pub fn buffer(random: &mut Random, length: Option<u64>, most: u64) -> usize {
    let exact = length.unwrap_or(most);
    let buffer = match random.below(8) {
        0 => exact,
        1 => exact.saturating_sub(1),
        2 => exact + 1,
        3 => random.below(most + 20),
        4 => most + 8,
        _ => most,
    };
    buffer as usize
}

/// An object of the layout, or one that differs from it a little, or any.
pub fn object(random: &mut Random, layout: &Layout) -> Object {
    let objects: Vec<Object> = layout.components.iter().flat_map(|c| c.objects.clone()).collect();
    if objects.is_empty() || random.chance(10) {
        return any_object(random);
    }
    let mut object = random.pick(&objects);
    match random.below(20) {
        0 => object.target = object.target.wrapping_add(random.pick(&[1, u32::MAX, 65_536])),
        1 => object.number = object.number.wrapping_add(random.pick(&[1, u64::MAX, 1 << 32])),
        _ => {}
    }
    object
}

/// An object byte near those that the component shows.
pub fn object_byte(random: &mut Random, layout: &Layout) -> u64 {
    let component = &layout.components[random.index(layout.components.len())];
    let stripes = u64::from(component.stripe_count).max(1);
    match random.below(6) {
        0 => random.of_any_size(),
        1 => u64::MAX - random.below(3),
        2 => unit_begin(random, component) / stripes,
        3 => component.end / stripes,
        4 => (component.begin / stripes).saturating_add(random.below(200_000)),
        _ => inside(random, component) / stripes,
    }
}

/// The arguments of a growth call, besides the pages.
pub struct GrowthCall {
    pub offset: u64,
    pub low_mark: u64,
    pub table: Vec<u64>,
}

pub fn growth(random: &mut Random, layout: &Layout) -> GrowthCall {
    let offset = match random.below(10) {
        0 | 1 => offset(random, layout),
        _ => growing_offset(random, layout),
    };
    let low_mark = match random.below(6) {
        0 => 0,
        1 => u64::MAX,
        2 => random.of_any_size(),
        _ => 1000,
    };
    GrowthCall {
        offset,
        low_mark,
        table: table(random, layout, low_mark),
    }
}

/// An offset in a component that is not init, if there is one, most often in the last.
fn growing_offset(random: &mut Random, layout: &Layout) -> u64 {
    let grows = |c: &&Component| !c.is_init() && c.begin < c.end;
    let growing: Vec<&Component> = layout.components.iter().filter(grows).collect();
    let component = match growing.last() {
        None => return offset(random, layout),
        Some(last) if random.chance(50) => last,
        Some(_) => random.pick(&growing),
    };
    let last = component.end - 1;
    let grant_end = component.begin.saturating_add(component.extension_size).min(last);
    match random.below(5) {
        0 => component.begin,
        1 => last,
        2 => grant_end,
        3 => grant_end.saturating_sub(1).max(component.begin),
        _ => random.between(component.begin, last),
    }
}

/// A free table, in some cases a bad one.
fn table(random: &mut Random, layout: &Layout, low_mark: u64) -> Vec<u64> {
    let targets = targets(random, layout);
    let low = random.pick(&[0, 0, 10, 50, 100]);
    let clash = random.pick(&[0, 0, 0, 10, 100]);
    let spent = random.pick(&[0, 0, 0, 10, 100]);
    let mut table = Vec::new();
    for target in targets {
        let free = match random.chance(low) {
            true => low_mark.saturating_sub(random.between(1, 3)),
            false => low_mark.saturating_add(random.pick(&[0, 0, 1, 500])),
        };
        let next = if random.chance(clash) {
            number_on(random, layout, target)
        } else if random.chance(spent) {
            u64::MAX - random.below(2)
        } else {
            1_000_000 + random.below(1_000_000_000)
        };
        table.extend([target, free, next]);
    }
    if random.chance(7) {
        damage_table(random, &mut table);
    }
    table
}

/// Up to 65 targets, strictly rising: a stretch of small ones, those of the layout, or any.
fn targets(random: &mut Random, layout: &Layout) -> Vec<u64> {
    let count = match random.below(8) {
        0 => 0,
        1 => random.between(62, 65),
        2 => random.between(0, 65),
        _ => random.between(1, 24),
    };
    let highest = random.pick(&[70, 70, 200, MAX_TARGET]);
    let mut targets: Vec<u64> = match random.below(3) {
        0 => (0..count).collect(),
        _ => (0..count).map(|_| random.between(0, highest)).collect(),
    };
    if random.chance(30) {
        let objects = layout.components.iter().flat_map(|c| &c.objects);
        targets.extend(objects.take(30).map(|object| u64::from(object.target)));
    }
    if random.chance(10) {
        targets.push(MAX_TARGET);
    }
    targets.sort_unstable();
    targets.dedup();
    targets.truncate(65);
    targets
}

/// The number of an object on this target, so that it clashes when it is chosen.
fn number_on(random: &mut Random, layout: &Layout, target: u64) -> u64 {
    let objects = layout.components.iter().flat_map(|c| &c.objects);
    let numbers: Vec<u64> = objects
        .filter(|object| u64::from(object.target) == target)
        .map(|object| object.number)
        .collect();
    match numbers.is_empty() {
        true => random.below(40),
        false => random.pick(&numbers),
    }
}

fn damage_table(random: &mut Random, table: &mut Vec<u64>) {
    let records = table.len() / 3;
    let place = random.index(records.max(1)) * 3;
    match random.below(8) {
        // A length that is no multiple of 3.
        0 => table.extend((0..random.between(1, 2)).map(|_| 70_000)),
        1 if records > 0 => table.truncate(records * 3 - random.between(1, 2) as usize),
        // A target repeated, or below the one before.
        2 if place > 0 => table[place] = table[place - 3],
        3 if place > 0 => table.swap(place, place - 3),
        // A target too high.
        4 if records > 0 => table[(records - 1) * 3] = MAX_TARGET + 1 + random.of_any_size() / 2,
        5 if records > 0 => table[place] += 1 << random.between(32, 63),
        // More records than a table may have, and 64 records with words of no whole record after them.
        6 => fill(table, random.between(66, 400) as usize),
        7 => {
            fill(table, 64);
            table.extend((0..random.between(1, 2)).map(|_| 70_000));
        }
        _ => {}
    }
}

/// Makes a table of so many records. The targets of those that are added rise.
fn fill(table: &mut Vec<u64>, records: usize) {
    table.truncate(3 * records);
    while table.len() < 3 * records {
        let target = match table.len() {
            0 => 0,
            length => table[length - 3] + 1,
        };
        table.extend([target, 1000, 7]);
    }
}
