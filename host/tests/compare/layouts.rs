//! Random valid layouts of every shape, and random pagings of them.

use moorsickle_host::draft::{Component, EOF, INIT, Layout, Object, Page};
use moorsickle_host::random::Random;

pub const SIZE_UNIT: u64 = 65_536;
pub const MAX_COMPONENTS: usize = 16;
pub const MAX_STRIPES: u64 = 16;
pub const MAX_TARGET: u64 = 65_534;

/// What the components of a layout have in common.
struct Style {
    /// in percent: a component gets an extension after it; a component is init; a component has 16 stripes
    extensions: u64,
    inits: u64,
    full: u64,
    /// in percent: objects have small numbers on few targets
    dense: u64,
    lengths: Lengths,
}

#[derive(Clone, Copy)]
enum Lengths {
    Bytes,
    Units,
    Wide,
}

#[derive(Clone, Copy, PartialEq)]
enum Kind {
    Init,
    Bare,
    EmptyBare,
    Extension,
}

impl Style {
    fn random(random: &mut Random) -> Style {
        Style {
            extensions: random.pick(&[0, 30, 60, 100]),
            inits: random.pick(&[40, 80, 100]),
            full: random.pick(&[0, 10, 50]),
            dense: random.pick(&[0, 50, 100]),
            lengths: random.pick(&[Lengths::Bytes, Lengths::Units, Lengths::Wide]),
        }
    }

    /// All components init with 16 stripes: 256 object records in 16 pages.
    fn largest() -> Style {
        Style {
            extensions: 0,
            inits: 100,
            full: 100,
            dense: 50,
            lengths: Lengths::Units,
        }
    }
}

/// A valid layout.
pub fn valid(random: &mut Random) -> Layout {
    if random.chance(4) {
        return of_style(random, &Style::largest(), MAX_COMPONENTS);
    }
    let count = match random.below(4) {
        0 => random.between(1, 3),
        1 => random.between(14, 16),
        _ => random.between(1, 16),
    };
    let style = Style::random(random);
    of_style(random, &style, count as usize)
}

/// A valid layout that has much to grow: extensions, the last component one of them in most cases.
pub fn growable(random: &mut Random) -> Layout {
    let count = match random.below(4) {
        0 => 16,
        1 => random.between(12, 16),
        _ => random.between(2, 10),
    };
    let style = Style {
        extensions: random.pick(&[50, 80, 100]),
        inits: random.pick(&[20, 60, 90]),
        full: random.pick(&[0, 0, 20]),
        dense: random.pick(&[50, 100]),
        lengths: random.pick(&[Lengths::Bytes, Lengths::Units, Lengths::Units, Lengths::Wide]),
    };
    of_style(random, &style, count as usize)
}

fn of_style(random: &mut Random, style: &Style, count: usize) -> Layout {
    let kinds = kinds(random, style, count);
    let lengths = lengths(random, style, &kinds);
    let ids = ids(random, count);
    let mut taken = Vec::new();
    let mut begin = 0;
    let mut components = Vec::new();
    for ((kind, length), id) in kinds.into_iter().zip(lengths).zip(ids) {
        let end = begin + length;
        let component = match kind {
            Kind::Extension => Component::extension(id, begin, end, extension_size(random)),
            Kind::Bare | Kind::EmptyBare => {
                let stripes = stripes(random, style);
                Component::bare(id, begin, end, stripe_size(random), stripes as u16)
            }
            Kind::Init => {
                let stripes = stripes(random, style);
                let objects = objects(random, style, stripes, &mut taken);
                Component::init(id, begin, end, stripe_size(random), objects)
            }
        };
        components.push(component);
        begin = end;
    }
    Layout {
        generation: generation(random),
        components,
    }
}

fn generation(random: &mut Random) -> u32 {
    match random.below(10) {
        0 => u32::MAX,
        1 => u32::MAX - random.below(4) as u32,
        2 => 0,
        _ => random.of_any_size() as u32,
    }
}

/// The kinds of `count` components that keep the rules of neighbours.
fn kinds(random: &mut Random, style: &Style, count: usize) -> Vec<Kind> {
    let mut kinds = Vec::new();
    while kinds.len() < count {
        let init = random.chance(style.inits);
        if count - kinds.len() >= 2 && random.chance(style.extensions) {
            kinds.push(if init { Kind::Init } else { Kind::EmptyBare });
            kinds.push(Kind::Extension);
        } else {
            kinds.push(if init { Kind::Init } else { Kind::Bare });
        }
    }
    kinds
}

/// The lengths of the components' extents; together at most 2^64 - 1.
fn lengths(random: &mut Random, style: &Style, kinds: &[Kind]) -> Vec<u64> {
    let mut lengths = Vec::new();
    for kind in kinds {
        lengths.push(match (kind, style.lengths) {
            (Kind::EmptyBare, _) => 0,
            (_, Lengths::Bytes) => random.between(1, 200_000),
            (_, Lengths::Units) => SIZE_UNIT * random.between(1, 300),
            (_, Lengths::Wide) => 1 + (random.of_any_size() >> 5),
        });
    }
    let rest = EOF - lengths.iter().sum::<u64>();
    let stretch = match random.below(4) {
        0 | 1 => 0,
        2 => rest,
        _ => rest - random.below(300_000),
    };
    // The last component is never an empty one.
    let mut place = random.index(lengths.len());
    while kinds[place] == Kind::EmptyBare {
        place += 1;
    }
    lengths[place] += stretch;
    lengths
}

/// Different ids: in order, mixed, or from the whole range.
fn ids(random: &mut Random, count: usize) -> Vec<u16> {
    let highest = match random.below(3) {
        0 => return (1..=count as u16).collect(),
        1 => count as u64 + 1,
        _ => 65_535,
    };
    let mut ids = Vec::new();
    while ids.len() < count {
        let id = random.between(1, highest) as u16;
        if !ids.contains(&id) {
            ids.push(id);
        }
    }
    ids
}

/// An id that no component of the layout has.
pub fn free_id(random: &mut Random, layout: &Layout) -> u16 {
    loop {
        let id = random.between(1, 65_535) as u16;
        if layout.components.iter().all(|c| c.id != id) {
            return id;
        }
    }
}

fn stripes(random: &mut Random, style: &Style) -> u64 {
    if random.chance(style.full) {
        MAX_STRIPES
    } else {
        let most = random.pick(&[1, 4, MAX_STRIPES]);
        random.between(1, most)
    }
}

fn stripe_size(random: &mut Random) -> u32 {
    let units = match random.below(4) {
        0 | 1 => 1,
        2 => random.pick(&[2, 3, 16, 64]),
        _ => random.between(1, 65_535),
    };
    (units * SIZE_UNIT) as u32
}

fn extension_size(random: &mut Random) -> u64 {
    let most = u64::MAX / SIZE_UNIT;
    let units = match random.below(8) {
        0 => most,
        1 => 1 + (random.of_any_size() & most) % most,
        2 => 1,
        _ => random.between(1, 300),
    };
    units * SIZE_UNIT
}

/// Objects for this many stripes; none of them is taken already, and all of them are then.
fn objects(random: &mut Random, style: &Style, stripes: u64, taken: &mut Vec<Object>) -> Vec<Object> {
    let dense = random.chance(style.dense);
    let mut objects = Vec::new();
    while (objects.len() as u64) < stripes {
        let object = if dense {
            Object {
                target: random.below(24) as u32,
                number: random.below(40),
            }
        } else {
            any_object(random)
        };
        if !taken.contains(&object) {
            taken.push(object);
            objects.push(object);
        }
    }
    objects
}

pub fn any_object(random: &mut Random) -> Object {
    let target = match random.below(8) {
        0 => MAX_TARGET - random.below(3),
        1 | 2 => random.between(0, MAX_TARGET),
        _ => random.below(30),
    };
    let number = match random.below(8) {
        0 => u64::MAX - random.below(3),
        _ => random.of_any_size(),
    };
    Object {
        target: target as u32,
        number,
    }
}

/// Pages of the layout: by the writer's rule, one component each, or anything between.
pub fn paging(random: &mut Random, layout: &Layout) -> Vec<Page> {
    let breaks = random.pick(&[0, 0, 20, 50, 100]);
    layout.pages_with_breaks(|_| random.chance(breaks))
}

/// Makes a component init on this many objects, at most 64, which may be in the layout already.
pub fn make_init(random: &mut Random, component: &mut Component, stripes: u64) {
    let stripes = stripes.min(64);
    component.flags |= INIT;
    component.stripe_count = stripes as u16;
    component.objects = (0..stripes).map(|_| any_object(random)).collect();
    if let Some(object) = component.objects.first() {
        component.first_target = object.target as i32;
    }
}
