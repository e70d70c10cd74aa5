//! Layouts as plain records that may break any rule, and pages made of them in any paging. Inputs for tests and for the
//! benchmark; nothing here checks anything.

pub const INIT: u16 = 1;
pub const EXTENSION: u16 = 2;
pub const MORE: u16 = 1;
pub const EOF: u64 = u64::MAX;
pub const MAX_PAGE_BYTES: usize = 512;
/// 16 pages, each with one component of 16 object records
pub const MAX_LAYOUT_BYTES: usize = 4992;

pub const HEAD_BYTES: usize = 16;
pub const COMPONENT_BYTES: usize = 40;
pub const OBJECT_BYTES: usize = 16;

#[derive(Clone, Copy, Debug, PartialEq, Eq, Hash)]
pub struct Object {
    pub target: u32,
    pub number: u64,
}

#[derive(Clone, Debug, PartialEq, Eq)]
pub struct Component {
    pub flags: u16,
    pub id: u16,
    pub stripe_count: u16,
    pub stripe_size: u32,
    pub first_target: i32,
    pub begin: u64,
    pub end: u64,
    pub extension_size: u64,
    pub objects: Vec<Object>,
}

#[derive(Clone, Debug, PartialEq, Eq)]
pub struct Layout {
    pub generation: u32,
    pub components: Vec<Component>,
}

#[derive(Clone, Debug)]
pub struct Page {
    pub flags: u16,
    pub number: u16,
    pub count: u16,
    pub generation: u32,
    pub components: Vec<Component>,
}

impl Component {
    /// A component that is init, on these objects.
    pub fn init(id: u16, begin: u64, end: u64, stripe_size: u32, objects: Vec<Object>) -> Self {
        Component {
            flags: INIT,
            stripe_count: objects.len() as u16,
            first_target: objects.first().map_or(-1, |object| object.target as i32),
            objects,
            ..Component::bare(id, begin, end, stripe_size, 0)
        }
    }

    /// A component that is neither init nor an extension.
    pub fn bare(id: u16, begin: u64, end: u64, stripe_size: u32, stripe_count: u16) -> Self {
        Component {
            flags: 0,
            id,
            stripe_count,
            stripe_size,
            first_target: -1,
            begin,
            end,
            extension_size: 0,
            objects: Vec::new(),
        }
    }

    pub fn extension(id: u16, begin: u64, end: u64, extension_size: u64) -> Self {
        Component {
            flags: EXTENSION,
            extension_size,
            ..Component::bare(id, begin, end, 0, 0)
        }
    }

    pub fn is_init(&self) -> bool {
        self.flags & INIT != 0
    }

    pub fn is_extension(&self) -> bool {
        self.flags & EXTENSION != 0
    }

    pub fn is_bare(&self) -> bool {
        self.flags & (INIT | EXTENSION) == 0
    }

    fn length(&self) -> usize {
        COMPONENT_BYTES + self.objects.len() * OBJECT_BYTES
    }

    fn write(&self, bytes: &mut Vec<u8>) {
        bytes.extend([0x43, 0x50]);
        bytes.extend(self.flags.to_le_bytes());
        bytes.extend(self.id.to_le_bytes());
        bytes.extend(self.stripe_count.to_le_bytes());
        bytes.extend(self.stripe_size.to_le_bytes());
        bytes.extend(self.first_target.to_le_bytes());
        bytes.extend(self.begin.to_le_bytes());
        bytes.extend(self.end.to_le_bytes());
        bytes.extend(self.extension_size.to_le_bytes());
        for object in &self.objects {
            bytes.extend([0x4F, 0x42, 0, 0]);
            bytes.extend(object.target.to_le_bytes());
            bytes.extend(object.number.to_le_bytes());
        }
    }

    /// The component at the start of pages that were accepted.
    fn read(bytes: &[u8]) -> Component {
        let mut component = Component {
            flags: number_at(bytes, 2, 2) as u16,
            id: number_at(bytes, 4, 2) as u16,
            stripe_count: number_at(bytes, 6, 2) as u16,
            stripe_size: number_at(bytes, 8, 4) as u32,
            first_target: number_at(bytes, 12, 4) as i32,
            begin: number_at(bytes, 16, 8),
            end: number_at(bytes, 24, 8),
            extension_size: number_at(bytes, 32, 8),
            objects: Vec::new(),
        };
        if component.is_init() {
            for stripe in 0..usize::from(component.stripe_count) {
                let at = COMPONENT_BYTES + stripe * OBJECT_BYTES;
                component.objects.push(Object {
                    target: number_at(bytes, at + 4, 4) as u32,
                    number: number_at(bytes, at + 8, 8),
                });
            }
        }
        component
    }
}

impl Layout {
    /// The pages by the writer's rule.
    pub fn pages(&self) -> Vec<Page> {
        self.pages_with_breaks(|_| false)
    }

    /// The pages, with a new page also started before each component for which `breaks` says so.
    pub fn pages_with_breaks(&self, mut breaks: impl FnMut(usize) -> bool) -> Vec<Page> {
        self.pages_where(|place, fits| !fits || breaks(place))
    }

    /// The pages where a new page starts before just these components, so a page may have more than 512 bytes.
    pub fn pages_broken_at(&self, places: &[usize]) -> Vec<Page> {
        self.pages_where(|place, _| places.contains(&place))
    }

    /// The pages where a new page starts before each component for which `starts` says so, by its place and whether it
    /// fits in the current page.
    fn pages_where(&self, mut starts: impl FnMut(usize, bool) -> bool) -> Vec<Page> {
        let mut pages: Vec<Page> = Vec::new();
        let mut length = 0;
        for (place, component) in self.components.iter().enumerate() {
            let fits = length + component.length() <= MAX_PAGE_BYTES;
            if pages.is_empty() || starts(place, fits) {
                pages.push(Page {
                    flags: MORE,
                    number: pages.len() as u16,
                    count: 0,
                    generation: self.generation,
                    components: Vec::new(),
                });
                length = HEAD_BYTES;
            }
            if let Some(page) = pages.last_mut() {
                page.count += 1;
                page.components.push(component.clone());
                length += component.length();
            }
        }
        if let Some(page) = pages.last_mut() {
            page.flags = 0;
        }
        pages
    }

    /// The pages by the writer's rule, back to back.
    pub fn bytes(&self) -> Vec<u8> {
        back_to_back(&self.pages())
    }

    /// The layout of pages back to back that were accepted.
    pub fn read(mut bytes: &[u8]) -> Layout {
        let mut layout = Layout {
            generation: number_at(bytes, 8, 4) as u32,
            components: Vec::new(),
        };
        while !bytes.is_empty() {
            let count = number_at(bytes, 6, 2);
            bytes = &bytes[HEAD_BYTES..];
            for _ in 0..count {
                let component = Component::read(bytes);
                bytes = &bytes[component.length()..];
                layout.components.push(component);
            }
        }
        layout
    }
}

impl Page {
    pub fn bytes(&self) -> Vec<u8> {
        let mut bytes = vec![0x50, 0x48];
        bytes.extend(self.flags.to_le_bytes());
        bytes.extend(self.number.to_le_bytes());
        bytes.extend(self.count.to_le_bytes());
        bytes.extend(self.generation.to_le_bytes());
        bytes.extend([0; 4]);
        for component in &self.components {
            component.write(&mut bytes);
        }
        bytes
    }
}

/// Pages one after another.
pub fn back_to_back(pages: &[Page]) -> Vec<u8> {
    pages.iter().flat_map(Page::bytes).collect()
}

/// A little-endian number of up to 8 bytes.
fn number_at(bytes: &[u8], at: usize, length: usize) -> u64 {
    let bytes = &bytes[at..at + length];
    bytes
        .iter()
        .rev()
        .fold(0, |number, byte| number << 8 | u64::from(*byte))
}
