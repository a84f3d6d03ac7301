//! Scripts from a seed with the calls of request 2026-03 put in between. What is
//! drawn for them is drawn aside: the lines of `random_script` stay as they are.

use super::random_dock::random_pages;
use super::random_page::random_health;
use super::random_script::{high_bit, random_script};
use super::rng::Rng;
use crate::rules::bench::Bench;
use crate::rules::convert;
use crate::rules::device::Device;
use crate::rules::layout::descriptor;
use crate::rules::request::Registers;
use crate::rules::script::{meaning, Call, Line, MOST_LENGTH};
use crate::rules::scsi::ScsiRequest;

/// A script of about `lines` lines and the calls between them.
pub fn random_scsi_script(seed: u64, lines: usize) -> Vec<u8> {
    let mut weave = Weave::new(Rng::new(seed).aside());
    for line in random_script(seed, lines).split_inclusive(|&byte| byte == b'\n') {
        weave.own_line(&line[..line.len() - 1]);
    }
    weave.script
}

struct Weave {
    rng: Rng,
    bench: Bench,
    script: Vec<u8>,
    /// What the kept page answers, if it is a page.
    asked: Registers,
    /// What the kept bytes answer, if they are SCSI data.
    request: ScsiRequest,
}

impl Weave {
    fn new(rng: Rng) -> Weave {
        Weave {
            rng,
            bench: Bench::new(),
            script: Vec::new(),
            asked: Registers::new(0, 1, 0),
            request: ScsiRequest {
                filter: 0,
                report_type: 0,
                start: 0,
            },
        }
    }

    fn say_bytes(&mut self, line: &[u8]) {
        self.bench.line(line);
        self.script.extend_from_slice(line);
        self.script.push(b'\n');
    }

    fn say(&mut self, line: &str) {
        self.say_bytes(line.as_bytes());
    }

    /// A line of the script. Calls come before it, mostly where it asks for a new
    /// page, so that the old lines that look at one still find it.
    fn own_line(&mut self, line: &[u8]) {
        let page = match meaning(line) {
            Line::Call(Call::Command(command)) if command.code == 0x12 => Some(command),
            _ => None,
        };
        let seldom = if page.is_some() { 2 } else { 40 };
        match self.bench.device.clone() {
            Some(device) if self.rng.once_in(seldom) => self.calls(&device),
            _ => {}
        }
        self.say_bytes(line);
        if let Some(command) = page {
            self.asked = command.registers;
        }
    }

    /// Data is made, changed or not, read and converted.
    fn calls(&mut self, device: &Device) {
        if self.holds_page() && self.rng.once_in(3) {
            self.toscsi();
        } else {
            self.scsi(device);
        }
        if self.rng.once_in(2) {
            self.poke();
        }
        if self.rng.once_in(3) {
            self.cut();
        }
        self.scsiread(device);
        if self.rng.once_in(2) {
            self.toata();
        }
        if self.holds_page() || self.rng.once_in(8) {
            self.toscsi();
        }
    }

    /// The kept bytes are as long as the page that was asked for last.
    fn holds_page(&self) -> bool {
        self.bench.page.len() == 512 * usize::from(self.asked.count)
    }

    /// Cuts the kept bytes between two descriptors, or anywhere.
    fn cut(&mut self) {
        let there = self.bench.page.len();
        let length = match self.rng.below(2) {
            0 => 32 * self.rng.place(there / 32 + 1),
            _ => self.rng.place(there + 9),
        };
        self.say(&format!("length {:x}", length));
    }

    /// `FILTER TYPE START`.
    fn request_words(&self) -> String {
        let request = self.request;
        format!(
            "{:x} {:x} {:x}",
            request.filter, request.report_type, request.start
        )
    }

    fn scsi(&mut self, device: &Device) {
        self.request = ScsiRequest {
            filter: self.small(),
            report_type: self.small(),
            start: self.start(device),
        };
        let allocation = self.allocation();
        let mut buffer = [0; MOST_LENGTH];
        let needed = device.scsi_status(&self.request, allocation, &mut buffer);
        let length = self.length_about(needed.unwrap_or(0));
        let words = self.request_words();
        self.say(&format!("scsi {} {:x} {:x}", words, allocation, length));
    }

    /// A filter or a report type: 0 or 1, a wild one now and then.
    fn small(&mut self) -> u8 {
        match self.rng.below(16) {
            0 => self.rng.byte(),
            1..=5 => 1,
            _ => 0,
        }
    }

    fn start(&mut self, device: &Device) -> u32 {
        let identifier = self.rng.pick(&device.elements).identifier;
        match self.rng.below(8) {
            0 => identifier,
            1 => identifier.wrapping_add(1),
            2 => self.rng.next() as u32,
            _ => 0,
        }
    }

    /// Above every list mostly, else somewhere in a small one.
    fn allocation(&mut self) -> u32 {
        match self.rng.below(6) {
            0 => self.rng.below(200) as u32,
            1 => 32 * self.rng.below(6) as u32,
            2 => self.rng.next() as u32,
            3 => u32::MAX,
            _ => 0x1_0000,
        }
    }

    /// The bytes that are written, or about so many.
    fn length_about(&mut self, exact: usize) -> usize {
        let length = match self.rng.below(12) {
            0 => exact.saturating_sub(1),
            1 => self.rng.place(exact + 1),
            2 => MOST_LENGTH,
            3 => exact + 1,
            _ => exact,
        };
        length.min(MOST_LENGTH)
    }

    fn toscsi(&mut self) {
        let mut buffer = [0; MOST_LENGTH];
        let needed = convert::to_scsi(&self.bench.page, &self.asked, &mut buffer);
        let length = self.length_about(needed.unwrap_or(0));
        let (feature, count, mut lba) = (self.asked.feature, self.asked.count, self.asked.lba());
        let mut aside = self.rng.aside();
        if aside.once_in(12) {
            lba |= high_bit(aside);
        }
        let words = format!("{:x} {:x} {:x} {:x}", feature, count, lba, length);
        self.say(&format!("toscsi {}", words));
        // The same request of SCSI.
        self.request = ScsiRequest {
            filter: (feature >> 14) as u8,
            report_type: (feature >> 8) as u8 & 0xF,
            start: lba as u32,
        };
    }

    fn toata(&mut self) {
        let pages = random_pages(&mut self.rng, &self.bench.page);
        let exact = 512 * usize::from(pages);
        let length = self.length_about(exact);
        let words = self.request_words();
        self.say(&format!("toata {} {:x} {:x}", words, pages, length));
        // The same request of ATA.
        let filter = u16::from(self.request.filter) << 14;
        let report_type = u16::from(self.request.report_type) << 8;
        let start = u64::from(self.request.start);
        self.asked = Registers::new(filter | report_type, pages, start);
    }

    /// Reads as the answer to its request mostly, else to another.
    fn scsiread(&mut self, device: &Device) {
        let own = self.request;
        match self.rng.below(12) {
            0 => self.request.filter ^= 1,
            1 => self.request.report_type ^= 1,
            2 => self.request.start = self.start(device),
            3 => self.request.filter = self.small(),
            _ => {}
        }
        let words = self.request_words();
        self.say(&format!("scsiread {}", words));
        self.request = own;
    }

    /// A byte that the reader looks at, or any.
    fn poke(&mut self) {
        let k = self.rng.place(4);
        let field = self.rng.pick(&[4, 7, 13, 14, 15, 16, 23, 0]);
        let place = match self.rng.below(5) {
            0 => self.rng.pick(&[0, 3, 4, 7]),
            1 => self.rng.place(self.bench.page.len() + 2),
            _ => descriptor(k) + field,
        };
        let byte = match self.rng.below(3) {
            0 => random_health(&mut self.rng),
            1 => self.rng.below(3) as u8,
            _ => self.rng.byte(),
        };
        self.say(&format!("poke {:x} {:x}", place, byte));
    }
}

#[cfg(test)]
mod tests {
    use super::*;

    /// Its lines are those of the script without these calls, and more.
    #[test]
    fn own_lines_stay() {
        for seed in 1..=5 {
            let woven = random_scsi_script(seed, 200);
            let mut lines = woven.split(|&byte| byte == b'\n');
            let script = random_script(seed, 200);
            for own in script.split(|&byte| byte == b'\n') {
                assert!(lines.any(|line| line == own), "seed {}", seed);
            }
        }
    }
}
