//! Growth: one step for the component that holds an offset, with the free table.

use super::component::{
    Component, ComponentRecord, MAX_COMPONENTS, MAX_STRIPES, MAX_TARGET, OBJECT_BYTES, ObjectRecord, make_init,
    object_record, object_target, set_id,
};
use super::layout::{Components, Layout};
use super::refusal;
use super::write::write_all;
use crate::Answer;

const MAX_TARGETS: usize = 64;

/// A record of the free table: target, free bytes, next object number.
type TargetRecord = [u64; 3];

/// The free table, seen to be right, with the low mark.
struct FreeTable<'t> {
    records: &'t mut [TargetRecord],
    low_mark: u64,
}

/// Newly chosen targets: their places in the table, and the object records.
struct Chosen {
    count: usize,
    places: [usize; MAX_STRIPES],
    objects: [ObjectRecord; MAX_STRIPES],
}

impl<'t> FreeTable<'t> {
    fn new(table: &'t mut [u64], low_mark: u64) -> Result<Self, u32> {
        let (records, odd) = table.as_chunks_mut::<3>();
        let rising = records.is_sorted_by(|a, b| a[0] < b[0]);
        let highest = records.last().map_or(0, |record| record[0]);
        if !odd.is_empty() || records.len() > MAX_TARGETS || !rising || highest > MAX_TARGET.into() {
            return Err(refusal::TABLE);
        }
        Ok(FreeTable { records, low_mark })
    }

    /// Whether the target is low: short of free bytes, or not in the table.
    fn is_low(&self, target: u32) -> bool {
        match self.records.binary_search_by_key(&target.into(), |record| record[0]) {
            Ok(place) => self.records[place][1] < self.low_mark,
            Err(_) => true,
        }
    }

    fn is_usable(&self, record: &TargetRecord) -> bool {
        record[1] >= self.low_mark && record[2] < u64::MAX
    }

    fn has_usable(&self, count: usize) -> bool {
        let usable = self.records.iter().filter(|record| self.is_usable(record));
        usable.take(count).count() == count
    }

    /// The `count` usable targets with the lowest targets, or none if there are fewer.
    fn choose(&self, count: usize) -> Option<Chosen> {
        let mut chosen = Chosen::nothing();
        for (place, record) in self.records.iter().enumerate() {
            if chosen.count == count {
                break;
            }
            if self.is_usable(record) {
                chosen.places[chosen.count] = place;
                chosen.objects[chosen.count] = object_record(record[0] as u32, record[2]);
                chosen.count += 1;
            }
        }
        (chosen.count == count).then_some(chosen)
    }

    /// Raises the next numbers of the chosen targets.
    fn spend(&mut self, chosen: &Chosen) {
        for &place in &chosen.places[..chosen.count] {
            self.records[place][2] += 1;
        }
    }
}

impl Chosen {
    fn nothing() -> Chosen {
        Chosen {
            count: 0,
            places: [0; MAX_STRIPES],
            objects: [[0; OBJECT_BYTES]; MAX_STRIPES],
        }
    }

    fn objects(&self) -> &[ObjectRecord] {
        &self.objects[..self.count]
    }
}

/// The steps. K is the component that holds the offset. If K is an extension it is X, C is the component before it,
/// N the one after it, and Y the extension after N.
#[derive(Clone, Copy, Debug, PartialEq, Eq, PartialOrd, Ord)]
pub enum Step {
    /// K is init: no change.
    Stay,
    /// K is bare: it is made init.
    MakeInit,
    /// C is bare: it is made init and takes a grant.
    FirstGrant,
    /// C takes a grant.
    Grant,
    /// Spill-over to N, which is init.
    SpillToInit,
    /// Spill-over to N, which is bare and made init; no extension follows.
    SpillToBare,
    /// Spill-over to N, which is bare and made init and takes its first bytes of Y.
    SpillToBareAndGrant,
    /// A new component before X takes the grant.
    Repeat,
    /// As Repeat with too few usable targets: C takes the grant.
    Forced,
}

/// The step that is due for the component at `place`.
fn step_at(components: &[Component], place: usize, table: &FreeTable) -> Step {
    let held = &components[place];
    if held.is_init() {
        return Step::Stay;
    }
    if !held.is_extension() {
        return Step::MakeInit;
    }
    let before = &components[place - 1];
    if !before.is_init() {
        return Step::FirstGrant;
    }
    let is_low = |object: &ObjectRecord| table.is_low(object_target(object));
    if !before.objects.iter().any(is_low) {
        return Step::Grant;
    }
    match components.get(place + 1) {
        Some(next) if next.is_init() => Step::SpillToInit,
        Some(_) if place + 2 < components.len() && components[place + 2].is_extension() => Step::SpillToBareAndGrant,
        Some(_) => Step::SpillToBare,
        None if table.has_usable(before.stripe_count()) => Step::Repeat,
        None => Step::Forced,
    }
}

/// What a step puts in the place of the components from `from` to before `to`: a component, and the rest of an
/// extension after it unless that is empty.
struct Change<'a> {
    from: usize,
    to: usize,
    record: ComponentRecord,
    objects: &'a [ObjectRecord],
    rest: Option<ComponentRecord>,
}

impl<'a> Change<'a> {
    /// The change of a step that is not `Stay`.
    fn of(step: Step, components: &[Component<'a>], place: usize, chosen: &'a Chosen) -> Self {
        let held = &components[place];
        match step {
            Step::Stay => unreachable!("no change"),
            Step::MakeInit => Change {
                from: place,
                to: place + 1,
                record: *held.record,
                objects: &[],
                rest: None,
            }
            .on(chosen),
            Step::FirstGrant => Change::grant(components, place).on(chosen),
            Step::Grant | Step::Forced => Change::grant(components, place),
            Step::SpillToInit => Change::spill(components, place),
            Step::SpillToBare => Change::spill(components, place).on(chosen),
            Step::SpillToBareAndGrant => Change::spill_and_grant(components, place).on(chosen),
            Step::Repeat => Change::repeat(components, place).on(chosen),
        }
    }

    /// The component before the extension at `place` takes a grant.
    fn grant(components: &[Component<'a>], place: usize) -> Self {
        let (before, extension) = (&components[place - 1], &components[place]);
        let end = first_bytes_end(extension, extension.begin());
        Change {
            from: place - 1,
            to: place + 1,
            record: before.with_extent(before.begin(), end),
            objects: before.objects,
            rest: rest_from(extension, end),
        }
    }

    /// The extension at `place` goes, and the next component begins where it began.
    fn spill(components: &[Component<'a>], place: usize) -> Self {
        let (extension, next) = (&components[place], &components[place + 1]);
        Change {
            from: place,
            to: place + 2,
            record: next.with_extent(extension.begin(), next.end()),
            objects: next.objects,
            rest: None,
        }
    }

    /// As `spill`; and the next component, which was empty, takes its first bytes of the extension after it.
    fn spill_and_grant(components: &[Component<'a>], place: usize) -> Self {
        let (extension, next) = (&components[place], &components[place + 1]);
        let after = &components[place + 2];
        let end = first_bytes_end(after, extension.begin());
        Change {
            from: place,
            to: place + 3,
            record: next.with_extent(extension.begin(), end),
            objects: &[],
            rest: rest_from(after, end),
        }
    }

    /// A new component before the extension at `place`, like the one before that, takes the grant.
    fn repeat(components: &[Component<'a>], place: usize) -> Self {
        let (before, extension) = (&components[place - 1], &components[place]);
        let end = first_bytes_end(extension, extension.begin());
        let mut record = before.with_extent(extension.begin(), end);
        set_id(&mut record, smallest_free_id(components));
        Change {
            from: place,
            to: place + 1,
            record,
            objects: &[],
            rest: rest_from(extension, end),
        }
    }

    /// The same with the component made init on the chosen targets.
    fn on(mut self, chosen: &'a Chosen) -> Self {
        self.objects = chosen.objects();
        make_init(&mut self.record, object_target(&self.objects[0]));
        self
    }

    /// The number of components after the change.
    fn count(&self, components: &[Component]) -> usize {
        components.len() - (self.to - self.from) + 1 + usize::from(self.rest.is_some())
    }

    /// The components after the change, which are at most 16.
    fn apply<'s>(&'s self, components: &[Component<'s>]) -> Components<'s> {
        let mut grown = Components::EMPTY;
        grown.extend(&components[..self.from]);
        grown.push(Component {
            record: &self.record,
            objects: self.objects,
        });
        if let Some(record) = &self.rest {
            grown.push(Component { record, objects: &[] });
        }
        grown.extend(&components[self.to..]);
        grown
    }
}

/// The lower of `begin` + the extension's extension size and the extension's end.
fn first_bytes_end(extension: &Component, begin: u64) -> u64 {
    begin + extension.extension_size().min(extension.end() - begin)
}

/// The extension from `begin` on, or none if that is empty.
fn rest_from(extension: &Component, begin: u64) -> Option<ComponentRecord> {
    (begin < extension.end()).then(|| extension.with_extent(begin, extension.end()))
}

/// The smallest id from 1 that no component has.
fn smallest_free_id(components: &[Component]) -> u16 {
    let mut taken = 0u32;
    for component in components {
        if usize::from(component.id()) <= MAX_COMPONENTS {
            taken |= 1 << component.id();
        }
    }
    ((taken >> 1).trailing_ones() + 1) as u16
}

/// The component for which a step chooses targets, if it chooses any.
fn chooses_for(step: Step, place: usize) -> Option<usize> {
    match step {
        Step::MakeInit => Some(place),
        Step::FirstGrant | Step::Repeat => Some(place - 1),
        Step::SpillToBare | Step::SpillToBareAndGrant => Some(place + 1),
        Step::Stay | Step::Grant | Step::SpillToInit | Step::Forced => None,
    }
}

/// Makes one step of growth for the component that holds the offset. Raises the next numbers of the chosen targets in
/// the table, writes the new pages to `grown`, and to `answer` their length and whether the offset has a home now.
pub fn grow(
    pages: &[u8],
    offset: u64,
    low_mark: u64,
    table: &mut [u64],
    grown: &mut [u8],
    answer: &mut [u64; 2],
) -> Answer {
    let mut layout = Layout::EMPTY;
    layout.read(pages)?;
    let components = layout.components();
    let place = layout.place_of(offset).ok_or(refusal::PAST_END)?;
    let mut table = FreeTable::new(table, low_mark)?;
    let step = step_at(components, place, &table);
    if step == Step::Stay {
        let length = write_all(components, layout.generation, grown).ok_or(refusal::BUFFER)?;
        *answer = [length as u64, 1];
        return Ok(());
    }
    let chosen = match chooses_for(step, place) {
        Some(place) => table
            .choose(components[place].stripe_count())
            .ok_or(refusal::TOO_FEW_TARGETS)?,
        None => Chosen::nothing(),
    };
    let change = Change::of(step, components, place, &chosen);
    if change.count(components) > MAX_COMPONENTS {
        return Err(refusal::GROWN_OVER_16);
    }
    let after = change.apply(components);
    // Neither the layout nor the choice has an object twice, so only a chosen one that was there already can be.
    if chosen.count > 0 && after.has_object_twice() {
        return Err(refusal::OBJECT_IN_LAYOUT);
    }
    let generation = layout.generation.checked_add(1).ok_or(refusal::GENERATION)?;
    let length = write_all(after.as_slice(), generation, grown).ok_or(refusal::BUFFER)?;
    table.spend(&chosen);
    let has_home = after.as_slice().iter().any(|c| c.is_init() && c.holds(offset));
    *answer = [length as u64, has_home.into()];
    Ok(())
}

/// The step that a call of `grow` comes to, or none if it is refused by 15 or a lower number. Later numbers may
/// still refuse it.
pub fn step_due(pages: &[u8], offset: u64, low_mark: u64, table: &[u64]) -> Option<Step> {
    let mut layout = Layout::EMPTY;
    layout.read(pages).ok()?;
    let place = layout.place_of(offset)?;
    let mut table = table.to_vec();
    let table = FreeTable::new(&mut table, low_mark).ok()?;
    Some(step_at(layout.components(), place, &table))
}
