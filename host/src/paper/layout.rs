//! Gathering a layout from pages: the form of a page, its place among the pages, and the component rules.

use super::component::{Component, MAX_COMPONENTS, MAX_STRIPES, u16_at, u32_at};
use super::refusal;

pub const HEAD_BYTES: usize = 16;
pub const MAX_PAGE_BYTES: usize = 512;
pub const PAGE_MARK: u16 = u16::from_le_bytes([0x50, 0x48]);
pub const MORE: u16 = 1;

/// Up to 16 components in file order.
#[derive(Clone, Copy)]
pub struct Components<'a> {
    places: [Component<'a>; MAX_COMPONENTS],
    count: usize,
}

impl<'a> Components<'a> {
    pub const EMPTY: Self = Components {
        places: [Component::NONE; MAX_COMPONENTS],
        count: 0,
    };

    pub fn as_slice(&self) -> &[Component<'a>] {
        &self.places[..self.count]
    }

    /// Whether two object records name the same target and number.
    pub fn has_object_twice(&self) -> bool {
        match self.as_slice().iter().map(|c| c.objects.len()).sum() {
            0..=1 => false,
            2..=32 => self.has_equal_objects::<32>(),
            _ => self.has_equal_objects::<{ MAX_COMPONENTS * MAX_STRIPES }>(),
        }
    }

    /// The same for at most `MOST` object records. Their form is right, so records that name the same are equal.
    fn has_equal_objects<const MOST: usize>(&self) -> bool {
        let mut keys = [0; MOST];
        let objects = self.as_slice().iter().flat_map(|c| c.objects);
        let mut count = 0;
        for (key, object) in keys.iter_mut().zip(objects) {
            *key = u128::from_le_bytes(*object);
            count += 1;
        }
        let keys = &mut keys[..count];
        keys.sort_unstable();
        keys.windows(2).any(|pair| pair[0] == pair[1])
    }

    pub fn push(&mut self, component: Component<'a>) {
        self.places[self.count] = component;
        self.count += 1;
    }

    pub fn extend(&mut self, components: &[Component<'a>]) {
        let end = self.count + components.len();
        self.places[self.count..end].copy_from_slice(components);
        self.count = end;
    }
}

/// What the head of a page says, once the form of the whole page is seen to be right.
pub struct Page {
    more: bool,
    number: u16,
    count: usize,
    generation: u32,
    /// the bytes up to the end of its last record
    pub length: usize,
}

/// A layout that is being gathered; once complete, a valid layout.
pub struct Layout<'a> {
    pub components: Components<'a>,
    pub generation: u32,
    pub pages: usize,
    pub complete: bool,
}

impl<'a> Layout<'a> {
    pub const EMPTY: Self = Layout {
        components: Components::EMPTY,
        generation: 0,
        pages: 0,
        complete: false,
    };

    /// Gathers the layout from its pages back to back, each ending after the records its head counts.
    pub fn read(&mut self, bytes: &'a [u8]) -> Result<(), u32> {
        let gathered = self.gather(bytes);
        // Objects are compared once for all pages taken. A page with an object for the second time would have been
        // refused before any later page was asked, so this refusal comes first.
        if self.components.has_object_twice() {
            return Err(refusal::DISTINCTNESS);
        }
        gathered
    }

    fn gather(&mut self, mut bytes: &'a [u8]) -> Result<(), u32> {
        while !bytes.is_empty() {
            let page = self.look_at(bytes)?;
            bytes = &bytes[page.length..];
            self.take(&page)?;
        }
        if self.complete {
            Ok(())
        } else {
            Err(refusal::NOT_COMPLETE)
        }
    }

    /// Looks at the form of the page at the start of `bytes` (refusals 2 and 3). Its components are put into the places
    /// after the gathered ones, as far as there are places, and are not counted yet.
    pub fn look_at(&mut self, bytes: &'a [u8]) -> Result<Page, u32> {
        if self.complete {
            return Err(refusal::AFTER_LAST_PAGE);
        }
        let free = &mut self.components.places[self.components.count..];
        page_form(bytes, free).ok_or(refusal::FORM)
    }

    /// Takes the page that was just looked at (refusals 4 to 8, but for objects that come twice).
    pub fn take(&mut self, page: &Page) -> Result<(), u32> {
        let next = usize::from(page.number) == self.pages;
        if !next || (self.pages > 0 && page.generation != self.generation) {
            return Err(refusal::PAGE_NUMBER);
        }
        let gathered = self.components.count;
        let count = gathered + page.count;
        let Some(components) = self.components.places.get(..count) else {
            return Err(refusal::OVER_16);
        };
        if !components[gathered..].iter().all(Component::fields_hold) {
            return Err(refusal::FIELDS);
        }
        if !neighbours_hold(components, gathered, page.more) {
            return Err(refusal::NEIGHBOURS);
        }
        if !ids_distinct(components, gathered) {
            return Err(refusal::DISTINCTNESS);
        }
        self.components.count = count;
        self.generation = page.generation;
        self.pages += 1;
        self.complete = !page.more;
        Ok(())
    }

    pub fn components(&self) -> &[Component<'a>] {
        self.components.as_slice()
    }

    /// The place of the component that holds the offset; none at or past the last component's end.
    pub fn place_of(&self, offset: u64) -> Option<usize> {
        self.components().iter().position(|c| offset < c.end())
    }
}

/// The page at the start of `bytes`, if its form is right. Its components are put into `free`, as far as they fit.
fn page_form<'a>(bytes: &'a [u8], free: &mut [Component<'a>]) -> Option<Page> {
    let bytes = &bytes[..bytes.len().min(MAX_PAGE_BYTES)];
    let (head, mut rest) = bytes.split_first_chunk::<HEAD_BYTES>()?;
    let flags = u16_at(head, 2);
    let count = usize::from(u16_at(head, 6));
    if u16_at(head, 0) != PAGE_MARK || flags & !MORE != 0 || count == 0 || u32_at(head, 12) != 0 {
        return None;
    }
    let mut free = free.iter_mut();
    for _ in 0..count {
        let (component, after) = Component::split_from(rest)?;
        if let Some(place) = free.next() {
            *place = component;
        }
        rest = after;
    }
    Some(Page {
        more: flags & MORE != 0,
        number: u16_at(head, 4),
        count,
        generation: u32_at(head, 8),
        length: bytes.len() - rest.len(),
    })
}

/// The rules of refusal 7 for the components from `gathered` on; those before keep them among themselves.
fn neighbours_hold(components: &[Component], gathered: usize, more: bool) -> bool {
    let first = &components[0];
    if first.begin() != 0 || first.is_extension() {
        return false;
    }
    let pairs = components[gathered.saturating_sub(1)..].windows(2);
    pairs.into_iter().all(|pair| follows(&pair[0], &pair[1])) && (more || !components[components.len() - 1].is_empty())
}

/// Whether `next` may directly follow `component`.
fn follows(component: &Component, next: &Component) -> bool {
    next.begin() == component.end()
        && !(component.is_extension() && next.is_extension())
        && (component.is_init() || component.is_empty() == next.is_extension())
}

/// Whether no component from `gathered` on has the id of one before it.
fn ids_distinct(components: &[Component], gathered: usize) -> bool {
    (gathered..components.len()).all(|place| {
        let id = components[place].id();
        components[..place].iter().all(|earlier| earlier.id() != id)
    })
}
