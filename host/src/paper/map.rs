//! Lookup, back and cutting.

use super::component::{Component, ObjectRecord, object_number, object_target};
use super::layout::Layout;
use super::refusal;
use crate::Answer;

const MAX_PIECES: u64 = 256;
/// The numbers of a piece: file offset, length, component id, stripe, object byte.
const PIECE_NUMBERS: usize = 5;

/// The home of the file byte at `offset`: target, object number, object byte.
pub fn lookup(pages: &[u8], offset: u64, home: &mut [u64; 3]) -> Answer {
    let mut layout = Layout::EMPTY;
    layout.read(pages)?;
    let place = layout.place_of(offset).ok_or(refusal::PAST_END)?;
    let component = &layout.components()[place];
    if !component.is_init() {
        return Err(refusal::NOT_INIT);
    }
    let unit = Unit::of(component, offset);
    let object = &component.objects[unit.stripe as usize];
    let byte = unit.object_byte(offset);
    *home = [object_target(object).into(), object_number(object), byte];
    Ok(())
}

/// The file byte whose home is this byte of the object with this target and number.
pub fn back(pages: &[u8], target: u32, number: u64, byte: u64, offset: &mut u64) -> Answer {
    let mut layout = Layout::EMPTY;
    layout.read(pages)?;
    let named = |object: &ObjectRecord| object_number(object) == number && object_target(object) == target;
    for component in layout.components() {
        if let Some(stripe) = component.objects.iter().position(named) {
            *offset = file_offset(component, stripe as u64, byte).ok_or(refusal::HIDDEN)?;
            return Ok(());
        }
    }
    Err(refusal::NO_OBJECT)
}

/// The file offset of a byte of the component's stripe, if it lies in the component.
fn file_offset(component: &Component, stripe: u64, byte: u64) -> Option<u64> {
    let size = component.stripe_size();
    let unit = (byte / size)
        .checked_mul(component.stripe_count() as u64)?
        .checked_add(stripe)?;
    let offset = unit.checked_mul(size)?.checked_add(byte % size)?;
    component.holds(offset).then_some(offset)
}

/// Cuts a request into pieces, which go to `room`, and tells how many they are.
pub fn cut(pages: &[u8], offset: u64, length: u64, room: &mut [u64], count: &mut u64) -> Answer {
    let mut layout = Layout::EMPTY;
    layout.read(pages)?;
    let end = offset.checked_add(length).ok_or(refusal::REQUEST_END)?;
    if length == 0 {
        *count = 0;
        return Ok(());
    }
    let first = layout.place_of(offset).ok_or(refusal::PAST_END)?;
    let last = layout.place_of(end - 1).ok_or(refusal::PAST_END)?;
    // An empty one among these is followed by an extension, which is among them too: the answer is 11 either way.
    let components = &layout.components()[first..=last];
    if !components.iter().all(Component::is_init) {
        return Err(refusal::NOT_INIT);
    }
    let part = |c: &Component| (offset.max(c.begin()), end.min(c.end()));
    let pieces: u64 = components.iter().map(|c| count_pieces(c, part(c))).sum();
    let room = room.as_chunks_mut::<PIECE_NUMBERS>().0;
    if pieces > MAX_PIECES || pieces > room.len() as u64 {
        return Err(refusal::PIECES);
    }
    let mut places = room.iter_mut();
    for component in components {
        cut_component(component, part(component), &mut places);
    }
    *count = pieces;
    Ok(())
}

/// The pieces of the file bytes from `begin` to before `end`, which lie in the component.
fn count_pieces(component: &Component, (begin, end): (u64, u64)) -> u64 {
    let size = component.stripe_size();
    (end - 1) / size - begin / size + 1
}

/// Writes those pieces to the next places.
fn cut_component<'r>(
    component: &Component,
    (begin, end): (u64, u64),
    places: &mut impl Iterator<Item = &'r mut [u64; PIECE_NUMBERS]>,
) {
    let id = component.id().into();
    let mut unit = Unit::of(component, begin);
    let mut from = begin;
    // The pieces were counted: there is a place for each.
    for place in places {
        let to = unit.end_up_to(end);
        *place = [from, to - from, id, unit.stripe, unit.object_byte(from)];
        if to == end {
            break;
        }
        unit.advance();
        from = to;
    }
}

/// The stretch of the file between two multiples of a component's stripe size.
struct Unit {
    size: u64,
    stripes: u64,
    /// the file offset of its first byte
    begin: u64,
    stripe: u64,
    /// the object byte of its first byte
    object_begin: u64,
}

impl Unit {
    /// The unit that holds the offset.
    fn of(component: &Component, offset: u64) -> Unit {
        let size = component.stripe_size();
        let stripes = component.stripe_count() as u64;
        let unit = offset / size;
        Unit {
            size,
            stripes,
            begin: unit * size,
            stripe: unit % stripes,
            object_begin: unit / stripes * size,
        }
    }

    /// The object byte of a file byte in it.
    fn object_byte(&self, offset: u64) -> u64 {
        self.object_begin + (offset - self.begin)
    }

    /// The lower of its end, which may lie past 2^64, and `end`, which lies in it or after it.
    fn end_up_to(&self, end: u64) -> u64 {
        self.begin + self.size.min(end - self.begin)
    }

    /// Goes on to the unit after it, which begins below 2^64.
    fn advance(&mut self) {
        self.begin += self.size;
        self.stripe += 1;
        if self.stripe == self.stripes {
            self.stripe = 0;
            self.object_begin += self.size;
        }
    }
}
