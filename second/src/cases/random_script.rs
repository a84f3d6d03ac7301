//! Scripts from a seed. The script is run while it is made, so that what comes
//! next can aim at the borders of the device as it then is.

use super::random_page::random_health;
use super::random_table::{random_limit, random_table};
use super::rng::Rng;
use super::script_text::{command_line, element_line};
use crate::rules::bench::Bench;
use crate::rules::device::Device;
use crate::rules::layout::descriptor;
use crate::rules::request::{RESERVED_FEATURE, RESERVED_LBA};
use crate::rules::script::MOST_LENGTH;
use crate::rules::table::Element;

pub struct Session {
    rng: Rng,
    bench: Bench,
    script: Vec<u8>,
    lines: usize,
    /// FEATURE, COUNT and LBA of the last request for a page.
    asked: (u16, u16, u64),
}

/// A script of about `lines` lines.
pub fn random_script(seed: u64, lines: usize) -> Vec<u8> {
    let mut session = Session::new(seed);
    while session.lines < lines {
        session.turn();
    }
    session.script
}

const NAMED: [u8; 13] = [
    0x24, 0x25, 0x34, 0x35, 0x42, 0xEC, 0xE1, 0x2F, 0x47, 0x0B, 0xF2, 0xEF, 0xB0,
];

/// FEATURE and LBA of an IDLE IMMEDIATE: mostly the Unload form, or a bit beside
/// it, with any bits where they do not count.
fn near_unload(mut rng: Rng) -> (u16, u64) {
    let feature = 0x44 | (rng.next() as u16) << 8;
    let lba = 0x055_4E4C | rng.next() << 28;
    match rng.below(8) {
        0 => (feature ^ 1 << rng.below(8), lba),
        1 => (feature, lba ^ 1 << rng.below(28)),
        2 => (rng.next() as u16, rng.next()),
        _ => (feature, lba),
    }
}

/// A bit of LBA above a start: reserved up to 47, ignored from there on.
pub fn high_bit(mut rng: Rng) -> u64 {
    1 << (32 + rng.below(32))
}

/// Lines that are no calls, or nearly so.
const NOISE: [&str; 14] = [
    "",
    "   ",
    "# cut",
    "cut cut",
    "  cut",
    "step ",
    "grade 3",
    "grade 0 00000000000000000",
    "make 10000",
    "element 1 1 1 1 2",
    "command open ec 0 0 0 0",
    "command locked 1ec 0 0 0 0",
    "cells\t",
    "poke 10000 1",
];

impl Session {
    pub fn new(seed: u64) -> Session {
        Session {
            rng: Rng::new(seed),
            bench: Bench::new(),
            script: Vec::new(),
            lines: 0,
            asked: (0, 1, 0),
        }
    }

    /// Elements of the device, if there is one.
    pub fn elements(&self) -> usize {
        let device = self.bench.device.as_ref();
        device.map_or(0, |device| device.elements.len())
    }

    /// The whole list, in so many pages.
    pub fn list_pages(&mut self, pages: u16) -> Vec<u8> {
        let length = 512 * usize::from(pages);
        self.say(&command_line("unlocked", 0x12, 0, pages, 0, length));
        self.bench.page.clone()
    }

    fn say(&mut self, line: &str) {
        self.say_bytes(line.as_bytes());
    }

    fn say_bytes(&mut self, line: &[u8]) {
        self.bench.line(line);
        self.script.extend_from_slice(line);
        self.script.push(b'\n');
        self.lines += 1;
    }

    /// The next lines.
    pub fn turn(&mut self) {
        let device = match &self.bench.device {
            Some(device) => device.clone(),
            None => return self.make(),
        };
        if self.rng.once_in(60) {
            self.make();
        } else if device.under_way() && self.rng.once_in(2) {
            self.go_on();
        } else if !device.under_way() && self.rng.once_in(5) {
            self.remove(&device);
        } else {
            self.anything(&device);
        }
    }

    /// A step, or now and then what disturbs it.
    fn go_on(&mut self) {
        if self.rng.once_in(8) {
            self.disturb();
        } else {
            self.say("step");
        }
    }

    /// Any call, whatever the device is doing.
    fn anything(&mut self, device: &Device) {
        match self.rng.below(50) {
            0..=2 => self.remove(device),
            3 => self.say("step"),
            4 => self.disturb(),
            5..=6 => self.reset(),
            7..=13 => self.grade(device),
            14..=21 => self.status(device),
            22..=33 => self.other(device),
            34..=39 => self.say("cells"),
            40..=48 => self.page(),
            _ => self.noise(),
        }
    }

    /// A table offered for a new device, which need not be a good one.
    pub fn make(&mut self) {
        let table = random_table(&mut self.rng);
        for one in &table {
            self.say(&element_line(one));
        }
        let limit = random_limit(&mut self.rng, table.len());
        self.say(&format!("make {:x}", limit));
        self.say("cells");
    }

    fn disturb(&mut self) {
        let word = self.rng.pick(&["cut", "error"]);
        self.say(word);
    }

    fn reset(&mut self) {
        let word = self.rng.pick(&["comreset", "hardreset", "softreset"]);
        self.say(word);
    }

    fn state(&mut self) -> &'static str {
        let states = ["unlocked", "unlocked", "unlocked", "frozen", "locked"];
        self.rng.pick(&states)
    }

    fn remove(&mut self, device: &Device) {
        let element = self.rng.pick(&device.elements);
        let identifier = self.identifier(&element);
        let lba = self.new_maximum(device, &element);
        let state = self.state();
        let (feature, count) = ((identifier >> 16) as u16, identifier as u16);
        self.say(&command_line(state, 0x7C, feature, count, lba, 0));
    }

    /// Mostly the element's own identifier, else one that looks like it.
    fn identifier(&mut self, element: &Element) -> u32 {
        let own = element.identifier;
        match self.rng.below(12) {
            0 => own.wrapping_add(1),
            1 => own.wrapping_sub(1),
            2 => own & 0xFFFF,
            3 => own.rotate_left(16),
            4 if self.rng.once_in(4) => self.rng.next() as u32,
            _ => own,
        }
    }

    /// 0, or an address near the difference of native max and blocks.
    fn new_maximum(&mut self, device: &Device, element: &Element) -> u64 {
        let difference = device.native.saturating_sub(element.blocks);
        match self.rng.below(14) {
            0..=4 => 0,
            5 => difference,
            6 => difference + 1,
            7 => difference.saturating_sub(1),
            8 => 1 + self.rng.below(device.native + 1),
            9 => (1 << 48) + difference + self.rng.below(2),
            10 => 1 << 48,
            11 => difference / 2,
            12 => self.rng.next(),
            _ => device.native,
        }
    }

    fn grade(&mut self, device: &Device) {
        let element = self.rng.pick(&device.elements);
        let identifier = match device.note {
            Some(note) if self.rng.once_in(2) => note.identifier,
            _ => self.identifier(&element),
        };
        let health = random_health(&mut self.rng);
        self.say(&format!("grade {:x} {:x}", identifier, health));
    }

    fn status(&mut self, device: &Device) {
        let feature = self.feature();
        let count = match self.rng.below(16) {
            0 => 0,
            1 => 9,
            2 => self.rng.next() as u16,
            _ => 1 + self.rng.below(3) as u16,
        };
        let lba = self.start(device);
        let exact = 512 * usize::from(count);
        let length = match self.rng.below(16) {
            0 => exact.saturating_sub(1),
            1 => exact + 1,
            2 => self.rng.place(1 + 2 * exact),
            _ => exact,
        };
        let state = self.state();
        let length = length.min(MOST_LENGTH);
        if length >= exact {
            self.asked = (feature, count, lba);
        }
        self.say(&command_line(state, 0x12, feature, count, lba, length));
    }

    /// A sound filter and report type mostly, a reserved bit now and then.
    fn feature(&mut self) -> u16 {
        let sound = self.rng.pick(&[0x0000, 0x0100, 0x4000, 0x4100]);
        match self.rng.below(12) {
            0 => self.rng.next() as u16 & !RESERVED_FEATURE,
            1 => sound | 1 << self.rng.below(16) & RESERVED_FEATURE,
            _ => sound,
        }
    }

    fn start(&mut self, device: &Device) -> u64 {
        let identifier = u64::from(self.rng.pick(&device.elements).identifier);
        match self.rng.below(10) {
            0 => identifier,
            1 => identifier + 1,
            2 => identifier - 1,
            3 => identifier | high_bit(self.rng.aside()),
            4 => identifier + (1 << 48),
            5 => self.rng.next() & !RESERVED_LBA,
            _ => 0,
        }
    }

    fn other(&mut self, device: &Device) {
        let code = if self.rng.once_in(4) {
            self.rng.byte()
        } else {
            self.rng.pick(&NAMED)
        };
        let low = u16::from(self.rng.byte());
        let mut feature = self
            .rng
            .pick(&[0x07, 0xD5, 0xDA, 0xFFD5, 0xDA07, 0xD500, low]);
        let (count, mut lba) = self.sectors(device);
        if code == 0xE1 {
            (feature, lba) = near_unload(self.rng.aside());
        }
        let length = self.rng.pick(&[0, 0, 1, 0x200]);
        let state = self.state();
        self.say(&command_line(state, code, feature, count, lba, length));
    }

    /// COUNT and LBA: a log address, or sectors about the accessible max.
    fn sectors(&mut self, device: &Device) -> (u16, u64) {
        let count = match self.rng.below(6) {
            0 => 0,
            1 => self.rng.next() as u16,
            _ => 1 + self.rng.below(3) as u16,
        };
        let sectors = if count == 0 { 65_536 } else { u64::from(count) };
        let lba = match self.rng.below(8) {
            0 => device.accessible,
            1 => (device.accessible + 1).saturating_sub(sectors),
            2 => (device.accessible + 2).saturating_sub(sectors),
            3 => self.rng.next(),
            4 => (1 << 48) + self.rng.below(16),
            5 => self.rng.below(device.accessible + 1),
            _ => self.rng.pick(&[0x04, 0x10, 0x30, 0xE0, 0x1230, 0x05]),
        };
        (count, lba)
    }

    /// Changes the kept page or not, then reads it.
    fn page(&mut self) {
        for _ in 0..self.rng.below(3) {
            let place = self.poke_place();
            let byte = match self.rng.below(3) {
                0 => random_health(&mut self.rng),
                1 => self.rng.below(3) as u8,
                _ => self.rng.byte(),
            };
            self.say(&format!("poke {:x} {:x}", place, byte));
        }
        if self.rng.once_in(12) {
            let length = self.rng.place(1 + self.bench.page.len() + 8);
            self.say(&format!("length {:x}", length));
        }
        let (mut feature, mut count, mut lba) = self.asked;
        match self.rng.below(8) {
            0 => feature = self.feature(),
            1 => count = self.rng.below(4) as u16,
            2 => lba = lba.wrapping_add(1),
            3 => lba = 0,
            4 => lba |= high_bit(self.rng.aside()),
            _ => {}
        }
        self.say(&format!("read {:x} {:x} {:x}", feature, count, lba));
    }

    /// A field that the reader looks at, or any place.
    fn poke_place(&mut self) -> usize {
        let k = self.rng.place(4);
        let field = self.rng.pick(&[4, 5, 13, 14, 15, 16, 0, 31]);
        match self.rng.below(6) {
            0 => self.rng.pick(&[0, 4]),
            1 => self.rng.place(self.bench.page.len() + 2),
            _ => descriptor(k) + field,
        }
        .min(MOST_LENGTH)
    }

    /// A line that is no call, or a call with one byte changed.
    fn noise(&mut self) {
        if self.rng.once_in(2) {
            let line = self.rng.pick(&NOISE);
            return self.say(line);
        }
        let mut line = b"grade 3 11".to_vec();
        let place = self.rng.place(line.len());
        line[place] = match self.rng.byte() {
            b'\n' => b' ',
            byte => byte,
        };
        self.say_bytes(&line);
    }
}
