//! A page or SCSI data under construction, and a named case for the committed
//! vectors.

use crate::rules::layout::{self, descriptor, Order, ROW};

/// A named input: a page, SCSI data or a script.
pub struct Case {
    pub name: String,
    pub data: Vec<u8>,
}

impl Case {
    pub fn new(name: &str, data: Vec<u8>) -> Case {
        Case {
            name: String::from(name),
            data,
        }
    }
}

/// Bytes being laid out; each method changes one field.
#[derive(Clone)]
pub struct Draft {
    order: Order,
    bytes: Vec<u8>,
}

/// The identifier that `Draft::list` gives to descriptor `k`.
pub fn usual_identifier(k: usize) -> u32 {
    0x100 + 0x10 * k as u32
}

impl Draft {
    /// All zeros: a good page with an empty list.
    pub fn blank(pages: usize) -> Draft {
        Draft {
            order: Order::Little,
            bytes: vec![0; 512 * pages],
        }
    }

    /// A good page for a list of `number` elements, as many as fit laid out.
    pub fn list(pages: usize, number: u32) -> Draft {
        let returned = number.min(16 * pages as u32 - 1);
        let mut draft = Draft::blank(pages).number(number).returned(returned);
        for k in 0..returned as usize {
            draft = draft.usual(k);
        }
        draft
    }

    /// Good SCSI data for a list of `number` elements, whole.
    pub fn dock(number: usize) -> Draft {
        let blank = Draft {
            order: Order::Big,
            bytes: vec![0; descriptor(number)],
        };
        let mut draft = blank.both(number as u32);
        for k in 0..number {
            draft = draft.usual(k);
        }
        draft
    }

    /// N and returned alike: "both count the whole list".
    pub fn both(self, value: u32) -> Draft {
        self.number(value).returned(value)
    }

    /// What is written from here on is in that order.
    pub fn in_order(self, order: Order) -> Draft {
        Draft { order, ..self }
    }

    /// Descriptor `k` with values that offend in no way; never health FFh.
    fn usual(self, k: usize) -> Draft {
        let health = (k * 7 % 0xD0) as u8;
        let element_type = if k % 5 == 4 { 0x02 } else { 0x01 };
        self.identifier(k, usual_identifier(k))
            .element_type(k, element_type)
            .health(k, health)
            .capacity(k, 1000 + k as u64)
    }

    pub fn number(self, value: u32) -> Draft {
        self.field(layout::NUMBER, &value.to_le_bytes())
    }

    pub fn returned(self, value: u32) -> Draft {
        self.field(layout::RETURNED, &value.to_le_bytes())
    }

    pub fn busy(self, value: u32) -> Draft {
        self.field(layout::BUSY, &value.to_le_bytes())
    }

    pub fn limit(self, value: u16) -> Draft {
        self.field(layout::LIMIT, &value.to_le_bytes())
    }

    pub fn removed(self, value: u16) -> Draft {
        self.field(layout::REMOVED_COUNT, &value.to_le_bytes())
    }

    pub fn identifier(self, k: usize, value: u32) -> Draft {
        self.field(descriptor(k) + layout::IDENTIFIER, &value.to_le_bytes())
    }

    /// Byte 13 whole: bit 0 is "restoration allowed".
    pub fn flags(self, k: usize, value: u8) -> Draft {
        self.byte(descriptor(k) + layout::FLAGS, value)
    }

    pub fn element_type(self, k: usize, value: u8) -> Draft {
        self.byte(descriptor(k) + layout::TYPE, value)
    }

    pub fn health(self, k: usize, value: u8) -> Draft {
        self.byte(descriptor(k) + layout::HEALTH, value)
    }

    pub fn capacity(self, k: usize, value: u64) -> Draft {
        self.field(descriptor(k) + layout::CAPACITY, &value.to_le_bytes())
    }

    /// Descriptor `k` whole, as it stands in the page.
    pub fn row(mut self, k: usize, row: &[u8; ROW]) -> Draft {
        self.bytes[descriptor(k)..descriptor(k + 1)].copy_from_slice(row);
        self
    }

    pub fn byte(self, place: usize, value: u8) -> Draft {
        self.field(place, &[value])
    }

    /// A field's bytes, lowest first.
    fn field(mut self, place: usize, value: &[u8]) -> Draft {
        self.order.put(&mut self.bytes, place, value);
        self
    }

    /// Cut to a length, or lengthened with zeros.
    pub fn length(mut self, length: usize) -> Draft {
        self.bytes.resize(length, 0);
        self
    }

    pub fn bytes(self) -> Vec<u8> {
        self.bytes
    }

    pub fn named(self, name: &str) -> Case {
        Case::new(name, self.bytes)
    }
}
