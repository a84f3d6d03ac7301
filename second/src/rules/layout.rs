//! Places in a status page (004 for the header, 003 for a descriptor), and what
//! stands there. SCSI data has "the same header and descriptors in big-endian
//! order" (request 2026-03), so the order of the bytes is a parameter.

pub const NUMBER: usize = 0;
pub const RETURNED: usize = 4;
pub const BUSY: usize = 8;
pub const LIMIT: usize = 12;
pub const REMOVED_COUNT: usize = 14;

/// Places within a descriptor.
pub const IDENTIFIER: usize = 4;
pub const FLAGS: usize = 13;
pub const TYPE: usize = 14;
pub const HEALTH: usize = 15;
pub const CAPACITY: usize = 16;

/// The header and each descriptor take 32 bytes.
pub const ROW: usize = 32;
/// Capacity of an element that does not report it: all ones.
pub const UNREPORTED: u64 = u64::MAX;

/// First byte of descriptor `k`; past the list, if `k` is the list's length.
pub fn descriptor(k: usize) -> usize {
    ROW + ROW * k
}

/// The order of the bytes of a field.
#[derive(Clone, Copy, Debug, PartialEq, Eq)]
pub enum Order {
    /// ATA: "Multi-byte page fields are little-endian."
    Little,
    /// SCSI: "in big-endian order".
    Big,
}

impl Order {
    /// `N` bytes at a place, the lowest first.
    fn field<const N: usize>(self, bytes: &[u8], place: usize) -> [u8; N] {
        let mut value = [0; N];
        value.copy_from_slice(&bytes[place..place + N]);
        if self == Order::Big {
            value.reverse();
        }
        value
    }

    pub fn get16(self, bytes: &[u8], place: usize) -> u16 {
        u16::from_le_bytes(self.field(bytes, place))
    }

    pub fn get32(self, bytes: &[u8], place: usize) -> u32 {
        u32::from_le_bytes(self.field(bytes, place))
    }

    pub fn get64(self, bytes: &[u8], place: usize) -> u64 {
        u64::from_le_bytes(self.field(bytes, place))
    }

    /// Writes a field at a place; its bytes are handed over lowest first.
    pub fn put(self, bytes: &mut [u8], place: usize, value: &[u8]) {
        let there = &mut bytes[place..place + value.len()];
        there.copy_from_slice(value);
        if self == Order::Big {
            there.reverse();
        }
    }
}

/// The header's numbers.
#[derive(Clone, Copy, Debug, PartialEq, Eq)]
pub struct Header {
    pub number: u32,
    pub returned: u32,
    pub busy: u32,
    pub limit: u16,
    pub removed: u16,
}

impl Header {
    pub fn read(order: Order, bytes: &[u8]) -> Header {
        Header {
            number: order.get32(bytes, NUMBER),
            returned: order.get32(bytes, RETURNED),
            busy: order.get32(bytes, BUSY),
            limit: order.get16(bytes, LIMIT),
            removed: order.get16(bytes, REMOVED_COUNT),
        }
    }

    fn write(&self, order: Order, bytes: &mut [u8]) {
        order.put(bytes, NUMBER, &self.number.to_le_bytes());
        order.put(bytes, RETURNED, &self.returned.to_le_bytes());
        order.put(bytes, BUSY, &self.busy.to_le_bytes());
        order.put(bytes, LIMIT, &self.limit.to_le_bytes());
        order.put(bytes, REMOVED_COUNT, &self.removed.to_le_bytes());
    }
}

/// One descriptor's values.
#[derive(Clone, Copy, Debug, PartialEq, Eq)]
pub struct Descriptor {
    pub identifier: u32,
    pub restoration: bool,
    pub element_type: u8,
    pub health: u8,
    pub capacity: u64,
}

impl Descriptor {
    /// "Reserved bytes are not looked at", bits 7:1 of byte 13 among them.
    pub fn read(order: Order, row: &[u8]) -> Descriptor {
        Descriptor {
            identifier: order.get32(row, IDENTIFIER),
            restoration: row[FLAGS] & 1 == 1,
            element_type: row[TYPE],
            health: row[HEALTH],
            capacity: order.get64(row, CAPACITY),
        }
    }

    fn write(&self, order: Order, row: &mut [u8]) {
        order.put(row, IDENTIFIER, &self.identifier.to_le_bytes());
        row[FLAGS] = u8::from(self.restoration);
        row[TYPE] = self.element_type;
        row[HEALTH] = self.health;
        order.put(row, CAPACITY, &self.capacity.to_le_bytes());
    }
}

/// Header and descriptors; "the rest zero".
pub fn lay_out(order: Order, header: &Header, descriptors: &[Descriptor]) -> Vec<u8> {
    let mut bytes = vec![0; descriptor(descriptors.len())];
    header.write(order, &mut bytes);
    for (k, one) in descriptors.iter().enumerate() {
        one.write(order, &mut bytes[descriptor(k)..descriptor(k + 1)]);
    }
    bytes
}
