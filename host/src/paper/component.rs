//! A component, seen through its bytes in a page: the form of its records, its fields, and the rules of its fields.

pub const MAX_COMPONENTS: usize = 16;
pub const MAX_STRIPES: usize = 16;
pub const MAX_TARGET: u32 = 65_534;
/// Stripe sizes and extension sizes are multiples of this.
const SIZE_UNIT: u64 = 65_536;

pub const COMPONENT_BYTES: usize = 40;
pub const OBJECT_BYTES: usize = 16;
pub type ComponentRecord = [u8; COMPONENT_BYTES];
pub type ObjectRecord = [u8; OBJECT_BYTES];

const COMPONENT_MARK: u16 = u16::from_le_bytes([0x43, 0x50]);
/// The mark of an object record and the two zero bytes after it.
const OBJECT_START: u32 = u32::from_le_bytes([0x4F, 0x42, 0, 0]);
const INIT: u16 = 1;
const EXTENSION: u16 = 2;

pub fn u16_at<const N: usize>(record: &[u8; N], at: usize) -> u16 {
    u16::from_le_bytes([record[at], record[at + 1]])
}

pub fn u32_at<const N: usize>(record: &[u8; N], at: usize) -> u32 {
    u32::from_le_bytes(record[at..at + 4].try_into().unwrap())
}

pub fn u64_at<const N: usize>(record: &[u8; N], at: usize) -> u64 {
    u64::from_le_bytes(record[at..at + 8].try_into().unwrap())
}

pub fn object_target(object: &ObjectRecord) -> u32 {
    u32_at(object, 4)
}

pub fn object_number(object: &ObjectRecord) -> u64 {
    u64_at(object, 8)
}

pub fn object_record(target: u32, number: u64) -> ObjectRecord {
    let mut object = [0; OBJECT_BYTES];
    object[..4].copy_from_slice(&OBJECT_START.to_le_bytes());
    object[4..8].copy_from_slice(&target.to_le_bytes());
    object[8..].copy_from_slice(&number.to_le_bytes());
    object
}

/// A component record and, if the component is init, its object records.
#[derive(Clone, Copy)]
pub struct Component<'a> {
    pub record: &'a ComponentRecord,
    pub objects: &'a [ObjectRecord],
}

impl<'a> Component<'a> {
    /// Fills the places of a list that hold no component yet.
    pub const NONE: Component<'static> = Component {
        record: &[0; COMPONENT_BYTES],
        objects: &[],
    };

    /// The component at the start of `bytes` and the bytes after it, or none if the form of a record is broken or the
    /// bytes end too early.
    pub fn split_from(bytes: &'a [u8]) -> Option<(Component<'a>, &'a [u8])> {
        let (record, rest) = bytes.split_first_chunk()?;
        let mut component = Component { record, objects: &[] };
        if u16_at(record, 0) != COMPONENT_MARK || component.flags() & !(INIT | EXTENSION) != 0 {
            return None;
        }
        if !component.is_init() {
            return Some((component, rest));
        }
        let (objects, rest) = rest.split_at_checked(component.stripe_count() * OBJECT_BYTES)?;
        component.objects = objects.as_chunks().0;
        let formed = |object: &ObjectRecord| u32_at(object, 0) == OBJECT_START;
        component.objects.iter().all(formed).then_some((component, rest))
    }

    fn flags(&self) -> u16 {
        u16_at(self.record, 2)
    }

    pub fn is_init(&self) -> bool {
        self.flags() & INIT != 0
    }

    pub fn is_extension(&self) -> bool {
        self.flags() & EXTENSION != 0
    }

    pub fn id(&self) -> u16 {
        u16_at(self.record, 4)
    }

    pub fn stripe_count(&self) -> usize {
        u16_at(self.record, 6).into()
    }

    pub fn stripe_size(&self) -> u64 {
        u32_at(self.record, 8).into()
    }

    pub fn first_target(&self) -> i32 {
        u32_at(self.record, 12) as i32
    }

    pub fn begin(&self) -> u64 {
        u64_at(self.record, 16)
    }

    pub fn end(&self) -> u64 {
        u64_at(self.record, 24)
    }

    pub fn extension_size(&self) -> u64 {
        u64_at(self.record, 32)
    }

    pub fn is_empty(&self) -> bool {
        self.begin() == self.end()
    }

    pub fn holds(&self, offset: u64) -> bool {
        self.begin() <= offset && offset < self.end()
    }

    /// The bytes of its records in a page.
    pub fn bytes(&self) -> usize {
        COMPONENT_BYTES + self.objects.len() * OBJECT_BYTES
    }

    /// The rules of refusal 6.
    pub fn fields_hold(&self) -> bool {
        self.id() != 0
            && match (self.is_init(), self.is_extension()) {
                (true, true) => false,
                (true, false) => self.striping_holds() && self.init_holds(),
                (false, false) => self.striping_holds() && self.bare_holds(),
                (false, true) => self.extension_holds(),
            }
    }

    fn striping_holds(&self) -> bool {
        (1..=MAX_STRIPES).contains(&self.stripe_count()) && is_size(self.stripe_size()) && self.extension_size() == 0
    }

    fn init_holds(&self) -> bool {
        let low = |object: &ObjectRecord| object_target(object) <= MAX_TARGET;
        self.begin() < self.end()
            && self.objects.iter().all(low)
            && self.first_target() == object_target(&self.objects[0]) as i32
    }

    fn bare_holds(&self) -> bool {
        self.begin() <= self.end() && self.first_target() == -1
    }

    fn extension_holds(&self) -> bool {
        self.begin() < self.end()
            && self.stripe_count() == 0
            && self.stripe_size() == 0
            && is_size(self.extension_size())
            && self.first_target() == -1
    }

    /// The record with another extent.
    pub fn with_extent(&self, begin: u64, end: u64) -> ComponentRecord {
        let mut record = *self.record;
        record[16..24].copy_from_slice(&begin.to_le_bytes());
        record[24..32].copy_from_slice(&end.to_le_bytes());
        record
    }
}

/// Makes the record that of an init component whose first object lies on `first_target`.
pub fn make_init(record: &mut ComponentRecord, first_target: u32) {
    record[2..4].copy_from_slice(&INIT.to_le_bytes());
    record[12..16].copy_from_slice(&first_target.to_le_bytes());
}

pub fn set_id(record: &mut ComponentRecord, id: u16) {
    record[4..6].copy_from_slice(&id.to_le_bytes());
}

/// Whether a stripe size or extension size is a nonzero multiple of 65,536.
fn is_size(size: u64) -> bool {
    size != 0 && size.is_multiple_of(SIZE_UNIT)
}
