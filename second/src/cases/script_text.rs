//! A script under construction.

use super::draft::{Case, Draft};
use super::walks::{walk, Asked};
use crate::rules::bench::after;
use crate::rules::table::Element;

/// The text of a script; each method adds lines.
pub struct Text {
    bytes: Vec<u8>,
}

/// Filter, report type and start of a SCSI request.
pub type ScsiWords = (u8, u8, u32);

/// The request for the whole list.
pub const ALL: ScsiWords = (0, 0, 0);

/// A storage element that reports its capacity.
pub fn storage(identifier: u32, health: u8, blocks: u64) -> Element {
    Element {
        identifier,
        element_type: 0x01,
        health,
        blocks,
        unreported: false,
    }
}

/// An element of another type, with block count 0.
pub fn other(identifier: u32, element_type: u8) -> Element {
    Element {
        element_type,
        ..storage(identifier, 0x00, 0)
    }
}

/// Document 01's "Device A".
pub fn table_a() -> [Element; 4] {
    [
        storage(0x1, 0x20, 1000),
        storage(0x3, 0x10, 1500),
        storage(0x0001_0003, 0x70, 500),
        other(0x0002_0000, 0x02),
    ]
}

/// `number` storage elements of 100 blocks, identifiers 1 upwards.
pub fn row_of(number: u32) -> Vec<Element> {
    (1..=number)
        .map(|k| storage(k, (k % 0xD0) as u8, 100))
        .collect()
}

impl Text {
    pub fn new() -> Text {
        Text { bytes: Vec::new() }
    }

    /// A script that starts with a fresh A.
    pub fn with_a() -> Text {
        let mut text = Text::new();
        text.make(&table_a(), 2);
        text
    }

    pub fn raw(&mut self, bytes: &[u8]) {
        self.bytes.extend_from_slice(bytes);
    }

    pub fn line(&mut self, line: &str) {
        self.raw(line.as_bytes());
        self.raw(b"\n");
    }

    pub fn lines(&mut self, lines: &[&str]) {
        for line in lines {
            self.line(line);
        }
    }

    pub fn element(&mut self, one: &Element) {
        self.line(&element_line(one));
    }

    /// Offers a table; the answer shows whether it is a good one.
    pub fn make(&mut self, elements: &[Element], limit: u16) {
        for one in elements {
            self.element(one);
        }
        self.line(&format!("make {:x}", limit));
    }

    /// A command under the state unlocked.
    pub fn command(&mut self, code: u8, feature: u16, count: u16, lba: u64, length: usize) {
        self.line(&command_line("unlocked", code, feature, count, lba, length));
    }

    /// 7Ch for an identifier.
    pub fn remove(&mut self, identifier: u32, lba: u64) {
        self.remove_under("unlocked", identifier, lba);
    }

    pub fn remove_under(&mut self, state: &str, identifier: u32, lba: u64) {
        let feature = (identifier >> 16) as u16;
        let count = identifier as u16;
        self.line(&command_line(state, 0x7C, feature, count, lba, 0));
    }

    pub fn steps(&mut self, number: usize) {
        for _ in 0..number {
            self.line("step");
        }
    }

    /// An undisturbed removal: acceptance and five steps.
    pub fn removal(&mut self, identifier: u32, lba: u64) {
        self.remove(identifier, lba);
        self.steps(5);
    }

    /// A removal that a cut ends after `done` steps, wound up.
    pub fn cut_removal(&mut self, identifier: u32, done: usize) {
        self.remove(identifier, 0);
        self.steps(done);
        self.line("cut");
        self.steps(4);
    }

    pub fn cells(&mut self) {
        self.line("cells");
    }

    /// Makes the kept page equal to a draft.
    pub fn page(&mut self, draft: &Draft) {
        let bytes = draft.clone().bytes();
        self.line("length 0");
        self.line(&format!("length {:x}", bytes.len()));
        for (place, &byte) in bytes.iter().enumerate() {
            if byte != 0 {
                self.poke(place, byte);
            }
        }
    }

    /// Pokes what makes `after` of `before`, both of one length.
    pub fn turn(&mut self, before: &Draft, after: &Draft) {
        let before = before.clone().bytes();
        let after = after.clone().bytes();
        for (place, (&old, &new)) in before.iter().zip(&after).enumerate() {
            if old != new {
                self.poke(place, new);
            }
        }
    }

    /// Reads a page, and each of the changed ones made of it.
    pub fn read_each(mut self, page: &Draft, changed: &[Draft], read: fn(&mut Text)) -> Text {
        self.page(page);
        read(&mut self);
        for draft in changed {
            self.turn(page, draft);
            read(&mut self);
            self.turn(draft, page);
        }
        self
    }

    pub fn poke(&mut self, place: usize, byte: u8) {
        self.line(&format!("poke {:x} {:x}", place, byte));
    }

    pub fn read(&mut self, feature: u16, count: u16, lba: u64) {
        self.line(&format!("read {:x} {:x} {:x}", feature, count, lba));
    }

    pub fn next(&mut self, feature: u16, count: u16, lba: u64) {
        self.line(&format!("next {:x} {:x} {:x}", feature, count, lba));
    }

    /// A request for a page, and what follows it.
    pub fn ask(&mut self, (feature, count, lba): Asked) {
        let length = 512 * usize::from(count);
        self.command(0x12, feature, count, lba, length);
        self.next(feature, count, lba);
    }

    /// A whole walk over the device that the script has made.
    pub fn walk(&mut self, feature: u16, counts: &[u16], start: u64) {
        if let Some(device) = after(&self.bytes).device {
            for asked in walk(&device, feature, counts, start) {
                self.ask(asked);
            }
        }
    }

    /// SCSI data for filter, report type and start, cut at an allocation length.
    pub fn scsi(&mut self, request: ScsiWords, allocation: u32, length: usize) {
        let words = scsi_words(request);
        self.line(&format!("scsi {} {:x} {:x}", words, allocation, length));
    }

    pub fn scsiread(&mut self, request: ScsiWords) {
        self.line(&format!("scsiread {}", scsi_words(request)));
    }

    pub fn toscsi(&mut self, feature: u16, count: u16, lba: u64, length: usize) {
        let words = format!("{:x} {:x} {:x} {:x}", feature, count, lba, length);
        self.line(&format!("toscsi {}", words));
    }

    pub fn toata(&mut self, request: ScsiWords, pages: u16, length: usize) {
        let words = scsi_words(request);
        self.line(&format!("toata {} {:x} {:x}", words, pages, length));
    }

    pub fn bytes(self) -> Vec<u8> {
        self.bytes
    }

    pub fn named(self, name: &str) -> Case {
        Case::new(name, self.bytes)
    }
}

pub fn element_line(one: &Element) -> String {
    format!(
        "element {:x} {:x} {:x} {:x} {}",
        one.identifier,
        one.element_type,
        one.health,
        one.blocks,
        u8::from(one.unreported)
    )
}

fn scsi_words((filter, report_type, start): ScsiWords) -> String {
    format!("{:x} {:x} {:x}", filter, report_type, start)
}

pub fn command_line(
    state: &str,
    code: u8,
    feature: u16,
    count: u16,
    lba: u64,
    length: usize,
) -> String {
    format!(
        "command {} {:02x} {:x} {:x} {:x} {:x}",
        state, code, feature, count, lba, length
    )
}
