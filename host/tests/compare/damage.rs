//! Damage to layouts, to their pages, and to the bytes of their pages.

use crate::layouts::{MAX_COMPONENTS, SIZE_UNIT, free_id, make_init};
use moorsickle_host::draft::{Component, EOF, EXTENSION, INIT, Layout, MORE, Page, back_to_back};
use moorsickle_host::random::Random;

/// Breaks one rule of a valid layout.
pub struct Damage {
    pub name: &'static str,
    /// the refusal of the layout with this damage alone
    pub refusal: u32,
    /// false if the layout has no place for it; then nothing is changed
    pub apply: fn(&mut Random, &mut Layout) -> bool,
}

const fn damage(refusal: u32, name: &'static str, apply: fn(&mut Random, &mut Layout) -> bool) -> Damage {
    Damage { name, refusal, apply }
}

/// Every clause of the component rules, and the limit of 16 components.
pub static DAMAGES: [Damage; 34] = [
    damage(3, "init with 29 stripes or more", |r, l| {
        on(r, l, is_init, |r, c| {
            let stripes = r.between(29, 40);
            make_init(r, c, stripes)
        })
    }),
    damage(5, "more than 16 components", too_many),
    damage(6, "id 0", |r, l| on(r, l, |_| true, |_, c| c.id = 0)),
    damage(6, "begin above end", begin_above_end),
    damage(6, "init and extension", both_flags),
    damage(6, "extension empty", |r, l| {
        on(r, l, is_extension, |_, c| c.end = c.begin)
    }),
    damage(6, "extension with stripes", |r, l| {
        on(r, l, is_extension, |r, c| c.stripe_count = r.between(1, 65_535) as u16)
    }),
    damage(6, "extension with a stripe size", |r, l| {
        on(r, l, is_extension, |r, c| {
            c.stripe_size = r.pick(&[1, 65_536, 1_048_576])
        })
    }),
    damage(6, "extension size 0", |r, l| {
        on(r, l, is_extension, |_, c| c.extension_size = 0)
    }),
    damage(6, "extension size odd", |r, l| {
        on(r, l, is_extension, |r, c| {
            c.extension_size |= r.between(1, SIZE_UNIT - 1)
        })
    }),
    damage(6, "init with 0 stripes", |r, l| {
        on(r, l, is_init, |_, c| {
            c.stripe_count = 0;
            c.objects.clear();
        })
    }),
    damage(6, "bare with 0 stripes", |r, l| {
        on(r, l, is_bare, |_, c| c.stripe_count = 0)
    }),
    damage(6, "init with 17 to 28 stripes", |r, l| {
        on(r, l, is_init, |r, c| {
            let stripes = r.between(17, 28);
            make_init(r, c, stripes)
        })
    }),
    damage(6, "bare with over 16 stripes", |r, l| {
        on(r, l, is_bare, |r, c| {
            c.stripe_count = 17 + (r.of_any_size() % 65_519) as u16
        })
    }),
    damage(6, "stripe size 0", |r, l| {
        on(r, l, is_striped, |_, c| c.stripe_size = 0)
    }),
    damage(6, "stripe size odd", |r, l| {
        on(r, l, is_striped, |r, c| {
            c.stripe_size |= r.between(1, SIZE_UNIT - 1) as u32
        })
    }),
    damage(6, "extension size on another", |r, l| {
        on(r, l, is_striped, |r, c| c.extension_size = r.pick(&[1, 65_536]))
    }),
    damage(6, "init empty", |r, l| on(r, l, is_init, |_, c| c.end = c.begin)),
    damage(6, "bare with a first target", |r, l| {
        on(r, l, is_bare, |r, c| c.first_target = r.pick(&[0, -2, 7]))
    }),
    damage(6, "extension with a first target", |r, l| {
        on(r, l, is_extension, |r, c| c.first_target = r.pick(&[0, -2, 7]))
    }),
    damage(6, "init with another first target", |r, l| {
        on(r, l, is_init, |r, c| {
            c.first_target = r.pick(&[-1, c.first_target ^ 1, c.first_target ^ 65_536])
        })
    }),
    damage(6, "first object's target high", |r, l| {
        on(r, l, is_init, |r, c| {
            let target = high_target(r);
            if let Some(object) = c.objects.first_mut() {
                object.target = target;
            }
            c.first_target = target as i32;
        })
    }),
    damage(6, "later object's target high", |r, l| {
        on(
            r,
            l,
            |c| c.objects.len() > 1,
            |r, c| {
                let stripe = r.between(1, c.objects.len() as u64 - 1) as usize;
                c.objects[stripe].target = high_target(r);
            },
        )
    }),
    damage(7, "first begins past 0", first_past_0),
    damage(7, "gap", gap),
    damage(7, "overlap", overlap),
    damage(7, "extension first", extension_first),
    damage(7, "extension after extension", extension_twice),
    damage(7, "bare not empty before extension", filled_before_extension),
    damage(7, "bare empty before another", empty_before_other),
    damage(7, "last empty", last_empty),
    damage(8, "id twice", id_twice),
    damage(8, "object twice in a component", object_twice_within),
    damage(8, "object twice across components", object_twice_across),
];

/// A damage, each refusal number being as likely as the others.
pub fn pick_damage(random: &mut Random) -> &'static Damage {
    let refusal = random.pick(&[3, 5, 6, 7, 8]);
    let damages: Vec<&Damage> = DAMAGES.iter().filter(|damage| damage.refusal == refusal).collect();
    random.pick(&damages)
}

fn is_init(component: &Component) -> bool {
    component.is_init()
}

fn is_bare(component: &Component) -> bool {
    component.is_bare()
}

fn is_extension(component: &Component) -> bool {
    component.is_extension()
}

fn is_striped(component: &Component) -> bool {
    !component.is_extension()
}

fn high_target(random: &mut Random) -> u32 {
    random.pick(&[65_535, 65_536, 65_536 + 7, 1 << 31, u32::MAX])
}

/// The place of a random component of this kind.
fn place(random: &mut Random, layout: &Layout, kind: impl Fn(&Component) -> bool) -> Option<usize> {
    let matching = |place: &usize| kind(&layout.components[*place]);
    let places: Vec<usize> = (0..layout.components.len()).filter(matching).collect();
    (!places.is_empty()).then(|| random.pick(&places))
}

/// Changes a random component of this kind.
fn on(
    random: &mut Random,
    layout: &mut Layout,
    kind: fn(&Component) -> bool,
    change: fn(&mut Random, &mut Component),
) -> bool {
    let place = place(random, layout, kind);
    if let Some(place) = place {
        change(random, &mut layout.components[place]);
    }
    place.is_some()
}

/// The length of its extent, which may be broken.
fn length(component: &Component) -> u64 {
    component.end.saturating_sub(component.begin)
}

fn last_end(layout: &Layout) -> u64 {
    layout.components[layout.components.len() - 1].end
}

fn too_many(random: &mut Random, layout: &mut Layout) -> bool {
    if last_end(layout) > EOF - 1000 {
        return false;
    }
    let count = random.between(17, 20) as usize;
    while layout.components.len() < count {
        let begin = last_end(layout);
        let id = free_id(random, layout);
        let bare = Component::bare(id, begin, begin + random.between(1, 50), 65_536, 1);
        layout.components.push(bare);
    }
    true
}

fn begin_above_end(random: &mut Random, layout: &mut Layout) -> bool {
    let Some(place) = place(random, layout, |c| c.begin < c.end) else {
        return false;
    };
    let component = &mut layout.components[place];
    std::mem::swap(&mut component.begin, &mut component.end);
    true
}

fn both_flags(random: &mut Random, layout: &mut Layout) -> bool {
    on(
        random,
        layout,
        |_| true,
        |random, component| {
            if component.is_bare() {
                make_init(random, component, component.stripe_count.into());
            }
            component.flags = INIT | EXTENSION;
        },
    )
}

fn first_past_0(random: &mut Random, layout: &mut Layout) -> bool {
    let first = &mut layout.components[0];
    if first.begin == first.end {
        first.begin = 1;
        first.end = 1;
    } else if first.end > 1 {
        first.begin = random.between(1, first.end - 1);
    } else {
        return false;
    }
    true
}

/// A change of a border by 1 to `most` bytes.
fn change(random: &mut Random, most: u64) -> u64 {
    match random.below(3) {
        0 => 1,
        1 => most,
        _ => random.between(1, most),
    }
}

fn gap(random: &mut Random, layout: &mut Layout) -> bool {
    let long = |c: &Component| c.begin > 0 && length(c) > 1;
    let Some(place) = place(random, layout, long) else {
        return false;
    };
    let component = &mut layout.components[place];
    let most = component.end - component.begin - 1;
    component.begin += change(random, most);
    true
}

fn overlap(random: &mut Random, layout: &mut Layout) -> bool {
    let Some(place) = place(random, layout, |c| c.begin > 0 && c.end > c.begin) else {
        return false;
    };
    let component = &mut layout.components[place];
    let most = component.begin;
    component.begin -= change(random, most);
    true
}

fn extension_first(random: &mut Random, layout: &mut Layout) -> bool {
    let first = &layout.components[0];
    if first.begin == first.end {
        layout.components.remove(0);
    } else if layout.components.get(1).is_some_and(is_extension) {
        return false;
    } else {
        let size = SIZE_UNIT * random.between(1, 10);
        layout.components[0] = Component::extension(first.id, 0, first.end, size);
    }
    true
}

fn extension_twice(random: &mut Random, layout: &mut Layout) -> bool {
    let long = |c: &Component| c.is_extension() && length(c) > 1;
    let place = place(random, layout, long);
    let (Some(place), true) = (place, layout.components.len() < MAX_COMPONENTS) else {
        return false;
    };
    let mut second = layout.components[place].clone();
    second.id = free_id(random, layout);
    second.begin = random.between(second.begin + 1, second.end - 1);
    layout.components[place].end = second.begin;
    layout.components.insert(place + 1, second);
    true
}

fn is_empty(component: &Component) -> bool {
    component.begin == component.end
}

fn filled_before_extension(random: &mut Random, layout: &mut Layout) -> bool {
    let Some(place) = place(random, layout, is_empty) else {
        return false;
    };
    match layout.components.get_mut(place + 1) {
        Some(extension) if length(extension) > 1 => {
            extension.begin += random.between(1, length(extension) - 1);
            layout.components[place].end = layout.components[place + 1].begin;
            true
        }
        _ => false,
    }
}

fn empty_before_other(random: &mut Random, layout: &mut Layout) -> bool {
    if layout.components.len() == MAX_COMPONENTS {
        return false;
    }
    let Some(place) = place(random, layout, |c| !c.is_extension()) else {
        return false;
    };
    let begin = layout.components[place].begin;
    let id = free_id(random, layout);
    let empty = Component::bare(id, begin, begin, 65_536, 1);
    layout.components.insert(place, empty);
    true
}

fn last_empty(random: &mut Random, layout: &mut Layout) -> bool {
    if layout.components.len() == MAX_COMPONENTS {
        return false;
    }
    let end = last_end(layout);
    let id = free_id(random, layout);
    layout.components.push(Component::bare(id, end, end, 65_536, 3));
    true
}

/// Two different places, the first below the second.
fn two(random: &mut Random, places: &[usize]) -> Option<(usize, usize)> {
    if places.len() < 2 {
        return None;
    }
    let first = random.index(places.len() - 1);
    let second = random.between(first as u64 + 1, places.len() as u64 - 1);
    Some((places[first], places[second as usize]))
}

fn id_twice(random: &mut Random, layout: &mut Layout) -> bool {
    let places: Vec<usize> = (0..layout.components.len()).collect();
    let Some((first, second)) = two(random, &places) else {
        return false;
    };
    layout.components[second].id = layout.components[first].id;
    true
}

fn object_twice_within(random: &mut Random, layout: &mut Layout) -> bool {
    let Some(place) = place(random, layout, |c| c.objects.len() > 1) else {
        return false;
    };
    let component = &mut layout.components[place];
    let stripes: Vec<usize> = (0..component.objects.len()).collect();
    if let Some((first, second)) = two(random, &stripes) {
        component.objects[second] = component.objects[first];
    }
    true
}

fn object_twice_across(random: &mut Random, layout: &mut Layout) -> bool {
    let init = |place: &usize| !layout.components[*place].objects.is_empty();
    let places: Vec<usize> = (0..layout.components.len()).filter(init).collect();
    let Some((first, second)) = two(random, &places) else {
        return false;
    };
    let object = random.pick(&layout.components[first].objects);
    let component = &mut layout.components[second];
    let stripe = random.index(component.objects.len());
    component.objects[stripe] = object;
    component.first_target = component.objects[0].target as i32;
    true
}

/// Changes the heads or the order of pages.
pub fn damage_pages(random: &mut Random, pages: &mut Vec<Page>) {
    let place = random.index(pages.len());
    match random.below(11) {
        0 => pages[place].flags ^= MORE,
        1 => pages[place].flags |= 1 << random.between(1, 15),
        2 => pages[place].number = random.of_any_size() as u16,
        3 => pages[place].number ^= 1,
        4 => pages[place].count = random.of_any_size() as u16,
        5 => pages[place].count = pages[place].count.wrapping_add(random.pick(&[1, u16::MAX])),
        6 => pages[place].generation ^= 1 << random.below(32),
        7 => {
            let other = random.index(pages.len());
            pages.swap(place, other);
        }
        8 => {
            pages.remove(place);
        }
        9 => join_pages(pages, place),
        _ => {
            let again = pages[place].clone();
            pages.insert(random.index(pages.len() + 1), again);
        }
    }
}

/// Joins a page with the next one. The joined page may pass 512 bytes; else the pages are as good as before.
fn join_pages(pages: &mut Vec<Page>, place: usize) {
    if place + 1 < pages.len() {
        let next = pages.remove(place + 1);
        let page = &mut pages[place];
        page.count = page.count.wrapping_add(next.count);
        page.flags = next.flags;
        page.components.extend(next.components);
        for later in &mut pages[place + 1..] {
            later.number = later.number.wrapping_sub(1);
        }
    }
}

/// Gives a component 17 to 28 stripes and breaks the mark of an object record past the 16th: refusal 3.
pub fn break_late_record(random: &mut Random, layout: &mut Layout) -> Option<Vec<u8>> {
    let component = place(random, layout, is_init)?;
    let stripes = random.between(17, 28);
    make_init(random, &mut layout.components[component], stripes);
    let pages = layout.pages_with_breaks(|place| place == component || place == component + 1);
    let before: usize = pages
        .iter()
        .position(|page| page.components[0] == layout.components[component])?;
    let mut bytes = back_to_back(&pages);
    let page = back_to_back(&pages[..before]).len();
    let object = page + 16 + 40 + 16 * random.between(16, stripes - 1) as usize;
    let at = object + random.index(4);
    change_byte(random, &mut bytes, Some(at));
    Some(bytes)
}

/// Changes bytes of pages. `records` has the places where records start.
pub fn damage_bytes(random: &mut Random, bytes: &mut Vec<u8>, records: &[usize]) {
    let some = random.between(1, 20) as usize;
    match random.below(8) {
        0 => change_byte(random, bytes, None),
        1 => {
            for _ in 0..some {
                change_byte(random, bytes, None);
            }
        }
        2 => bytes.truncate(random.index(bytes.len() + 1)),
        3 if !records.is_empty() => bytes.truncate(random.pick(records)),
        4 => {
            let at = random.index(bytes.len() + 1);
            let inserted = random_bytes(random, some);
            bytes.splice(at..at, inserted);
        }
        5 => bytes.extend(random_bytes(random, some)),
        6 => {
            let from = random.index(bytes.len() + 1);
            let to = bytes.len().min(from + some);
            bytes.drain(from..to);
        }
        _ => {
            // Mark, flags or zero bytes of a record, or the bytes that are zero in a page head.
            let record = (!records.is_empty()).then(|| random.pick(records));
            let within = random.pick(&[0, 1, 2, 3, 12, 13, 14, 15]);
            change_byte(random, bytes, record.map(|record| record + within));
        }
    }
}

/// Random bytes, or zero bytes.
fn random_bytes(random: &mut Random, count: usize) -> Vec<u8> {
    let mask = random.pick(&[0, 0xFF]);
    (0..count).map(|_| random.number() as u8 & mask).collect()
}

/// Changes one bit or more of a byte, at a random place if none is given.
fn change_byte(random: &mut Random, bytes: &mut [u8], at: Option<usize>) {
    if bytes.is_empty() {
        return;
    }
    let at = at.unwrap_or_else(|| random.index(bytes.len()));
    let change = match random.below(2) {
        0 => 1 << random.below(8),
        _ => random.between(1, 255) as u8,
    };
    if let Some(byte) = bytes.get_mut(at) {
        *byte ^= change;
    }
}

/// The places in the bytes of the pages where heads, components and objects start.
pub fn record_places(pages: &[Page]) -> Vec<usize> {
    let mut places = Vec::new();
    let mut at = 0;
    for page in pages {
        places.push(at);
        at += 16;
        for component in &page.components {
            places.push(at);
            at += 40;
            for _ in &component.objects {
                places.push(at);
                at += 16;
            }
        }
    }
    places
}

/// A list of random bytes, or of parts of pages.
pub fn rubbish(random: &mut Random, pages: &[Page]) -> Vec<u8> {
    match random.below(4) {
        0 => Vec::new(),
        1 => (0..random.below(600)).map(|_| random.number() as u8).collect(),
        2 => vec![random.number() as u8; random.index(600)],
        _ => {
            let bytes = back_to_back(pages);
            bytes[random.index(bytes.len())..].to_vec()
        }
    }
}
