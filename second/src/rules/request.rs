//! The registers of a command, and what GET PHYSICAL ELEMENT STATUS (12h)
//! reads in them. One decoding serves the device and the reader.

/// Type 01h is storage.
pub const STORAGE: u8 = 0x01;
/// Health of a removed element.
pub const REMOVED: u8 = 0xFF;

/// The reserved bits of a request for status: FEATURE 13:12 and 7:0, LBA 47:32.
pub const RESERVED_FEATURE: u16 = 0x30FF;
pub const RESERVED_LBA: u64 = 0xFFFF_0000_0000;

/// FEATURE, COUNT and LBA as handed over.
#[derive(Clone, Copy, Debug, PartialEq, Eq)]
pub struct Registers {
    pub feature: u16,
    pub count: u16,
    lba: u64,
}

impl Registers {
    pub fn new(feature: u16, count: u16, lba: u64) -> Registers {
        Registers {
            feature,
            count,
            lba,
        }
    }

    /// "if more bits of LBA are handed over, those above bit 47 are ignored".
    pub fn lba(&self) -> u64 {
        self.lba & 0xFFFF_FFFF_FFFF
    }

    /// FEATURE 7:0, a subcommand.
    pub fn subcommand(&self) -> u8 {
        self.feature.to_le_bytes()[0]
    }

    /// LBA 7:0, a log address.
    pub fn log(&self) -> u8 {
        self.lba.to_le_bytes()[0]
    }
}

/// Which elements a request for status asks for.
#[derive(Clone, Copy, Debug, PartialEq, Eq)]
pub struct Wanted {
    filtered: bool,
    storage_only: bool,
    start: u32,
}

impl Wanted {
    /// "filter 10b or 11b, report type above 1, ..: all 4": `None`.
    pub fn of(filter: u16, report_type: u16, start: u32) -> Option<Wanted> {
        if filter > 1 {
            return None;
        }
        if report_type > 1 {
            return None;
        }
        Some(Wanted {
            filtered: filter == 1,
            storage_only: report_type == 1,
            start,
        })
    }

    /// "identifier at or above the start".
    pub fn takes_identifier(&self, identifier: u32) -> bool {
        identifier >= self.start
    }

    /// "type 01h only if report type is 1".
    pub fn takes_type(&self, element_type: u8) -> bool {
        !self.storage_only || element_type == STORAGE
    }

    /// "with filter 01b only health 65h to CFh, or FFh".
    pub fn takes_health(&self, health: u8) -> bool {
        !self.filtered || (0x65..=0xCF).contains(&health) || health == REMOVED
    }
}

/// A request for status pages that does not get 4.
#[derive(Clone, Copy, Debug, PartialEq, Eq)]
pub struct Request {
    pub wanted: Wanted,
    pages: u16,
}

impl Request {
    /// "filter 10b or 11b, report type above 1, p = 0: all 4", and of reserved bits
    /// "4, after the page count check" (request 2026-05): `None`.
    pub fn of(registers: &Registers) -> Option<Request> {
        let filter = registers.feature >> 14;
        let report_type = (registers.feature >> 8) & 0xF;
        // LBA 31:0.
        let start = registers.lba() as u32;
        let wanted = Wanted::of(filter, report_type, start)?;
        if registers.count == 0 {
            return None;
        }
        if has_reserved_bits(registers) {
            return None;
        }
        Some(Request {
            wanted,
            pages: registers.count,
        })
    }

    /// The page's length, 512p.
    pub fn bytes(&self) -> usize {
        512 * usize::from(self.pages)
    }

    /// Descriptors that fit: 16p - 1, the header taking the first place.
    pub fn room(&self) -> u32 {
        16 * u32::from(self.pages) - 1
    }
}

/// "FEATURE 13:12 or 7:0 not zero, or LBA 47:32 not zero".
fn has_reserved_bits(registers: &Registers) -> bool {
    registers.feature & RESERVED_FEATURE != 0 || registers.lba & RESERVED_LBA != 0
}
