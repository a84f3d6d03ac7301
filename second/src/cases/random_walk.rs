//! Scripts from a seed with the calls of request 2026-04 put in between. What is
//! drawn for them is drawn aside: the lines of `random_scsi_script` stay as they
//! are.

use super::random_script::high_bit;
use super::random_scsi::random_scsi_script;
use super::rng::Rng;
use super::script_text::Text;
use super::walks::{walk, Asked};
use crate::rules::bench::Bench;
use crate::rules::device::Device;
use crate::rules::layout::{descriptor, IDENTIFIER};
use crate::rules::request::{Registers, RESERVED_LBA};
use crate::rules::script::{meaning, Call, Line};

/// A script of about `lines` lines and the calls between them.
pub fn random_walk_script(seed: u64, lines: usize) -> Vec<u8> {
    let mut weave = Weave {
        rng: Rng::new(seed).aside().aside(),
        bench: Bench::new(),
        text: Text::new(),
    };
    for line in random_scsi_script(seed, lines).split_inclusive(|&byte| byte == b'\n') {
        weave.own_line(line);
    }
    weave.text.bytes()
}

struct Weave {
    rng: Rng,
    /// Runs the own lines alone: what comes between them changes no device.
    bench: Bench,
    text: Text,
}

impl Weave {
    /// A line of the script. A walk comes before one that asks for a new page, so
    /// that the old lines that look at a page still find theirs.
    fn own_line(&mut self, line: &[u8]) {
        let call = &line[..line.len() - 1];
        let (asks, looks) = match meaning(call) {
            Line::Call(Call::Command(command)) if command.code == 0x12 => {
                (true, Some(command.registers))
            }
            Line::Call(Call::Read(registers)) => (false, Some(registers)),
            _ => (false, None),
        };
        if asks {
            self.walks();
        }
        self.bench.line(call);
        self.text.raw(line);
        match looks {
            Some(registers) if self.rng.once_in(2) => self.next(&registers),
            _ => {}
        }
    }

    /// Over a device whose elements do not all fit in a page of one, else seldom.
    fn walks(&mut self) {
        match self.bench.device.clone() {
            Some(device) if device.elements.len() > 15 || self.rng.once_in(20) => {
                self.walk(&device);
            }
            _ => {}
        }
    }

    fn walk(&mut self, device: &Device) {
        let feature = self.rng.pick(&[0x0000, 0x0000, 0x0100, 0x4000, 0x4100]);
        let counts = [(); 4].map(|()| self.rng.pick(&[1, 1, 1, 2, 3, 9]));
        let start = self.start(device);
        let requests: Vec<Asked> = walk(device, feature, &counts, start).collect();
        for &asked in &requests {
            self.text.ask(asked);
        }
        if requests.len() > 1 && self.rng.once_in(2) {
            self.lie(requests[0]);
        }
    }

    fn start(&mut self, device: &Device) -> u64 {
        let identifier = u64::from(self.rng.pick(&device.elements).identifier);
        match self.rng.below(8) {
            0 => identifier,
            1 => identifier + 1,
            2 => identifier | high_bit(self.rng.aside()),
            3 => self.rng.next() & !RESERVED_LBA,
            _ => 0,
        }
    }

    /// A page that is cut, changed so that it ends at FFFF_FFFFh or before it.
    fn lie(&mut self, asked: Asked) {
        self.text.ask(asked);
        let (feature, count, lba) = asked;
        let last = descriptor(16 * usize::from(count) - 2) + IDENTIFIER;
        for byte in 1..4 {
            self.text.poke(last + byte, 0xFF);
        }
        let lowest = self.rng.pick(&[0xFF, 0xFF, 0xFE, 0x00]);
        self.text.poke(last, lowest);
        self.text.next(feature, count, lba);
    }

    /// After the page that answers a request, or one that does not.
    fn next(&mut self, registers: &Registers) {
        let (mut feature, mut count, mut lba) =
            (registers.feature, registers.count, registers.lba());
        match self.rng.below(12) {
            0 => feature ^= self.rng.pick(&[0x0001, 0x0100, 0x0200, 0x4000, 0x8000]),
            1 => count = self.rng.below(4) as u16,
            2 => lba += 1,
            3 => lba |= high_bit(self.rng.aside()),
            _ => {}
        }
        self.text.next(feature, count, lba);
    }
}

#[cfg(test)]
mod tests {
    use super::*;
    use crate::rules::bench::run;

    /// Its lines are those of the script without these calls, and more.
    #[test]
    fn own_lines_stay() {
        for seed in 1..=5 {
            let woven = random_walk_script(seed, 200);
            let mut lines = woven.split(|&byte| byte == b'\n');
            let script = random_scsi_script(seed, 200);
            for own in script.split(|&byte| byte == b'\n') {
                assert!(lines.any(|line| line == own), "seed {}", seed);
            }
        }
    }

    /// Walks go on after a page of one, and pages lie, in the scripts of a campaign.
    #[test]
    fn walks_go_on() {
        let mut answers = String::new();
        for seed in 1..=3 {
            answers += &run(&random_walk_script(seed, 2000));
        }
        let number = |word: &str| answers.lines().filter(|line| line.contains(word)).count();
        assert!(number("ask 0") > 30, "{}", number("ask 0"));
        assert!(number("ask FFFFFF") > 0);
    }
}
