//! The front call, and "The other commands".

use super::answer::Answer;
use super::device::Device;
use super::removal::Security;
use super::request::Registers;

const REMOVE_ELEMENT_AND_TRUNCATE: u8 = 0x7C;
const GET_PHYSICAL_ELEMENT_STATUS: u8 = 0x12;

/// "EXT reads, writes, verify: media access".
const MEDIA_ACCESS: [u8; 5] = [0x24, 0x25, 0x34, 0x35, 0x42];

/// The other codes that document 01 names, 7Ch and 12h apart.
const NO_MEDIA_ACCESS: [u8; 8] = [0xEC, 0xE1, 0x2F, 0x47, 0x0B, 0xF2, 0xEF, 0xB0];

impl Device {
    /// Any command code; 7Ch and 12h go to their own rules.
    pub fn command(
        &mut self,
        security: Security,
        code: u8,
        registers: &Registers,
        buffer: &mut [u8],
    ) -> Answer {
        match code {
            REMOVE_ELEMENT_AND_TRUNCATE => self.remove(security, registers),
            GET_PHYSICAL_ELEMENT_STATUS => self.status(registers, buffer),
            _ => self.judge(code, registers),
        }
    }

    /// "Order: not open during a removal: 2; unknown: 6; media access with the
    /// failed mark: 3; last sector above the accessible max: 5; else 0."
    fn judge(&self, code: u8, registers: &Registers) -> Answer {
        let media_access = MEDIA_ACCESS.contains(&code);
        if self.under_way() && !is_open(code, registers) {
            return Answer::InProgress;
        }
        if !media_access && !NO_MEDIA_ACCESS.contains(&code) {
            return Answer::NotNamed;
        }
        if media_access && self.failed {
            return Answer::Failed;
        }
        if media_access && last_sector(registers) > self.accessible {
            return Answer::Beyond;
        }
        Answer::Done
    }
}

/// "Open during a removal (002)"; of E1h "only the Unload form" (request 2026-02).
fn is_open(code: u8, registers: &Registers) -> bool {
    let subcommand = registers.subcommand();
    let log = registers.log();
    match code {
        0xEC | 0x0B | 0xF2 => true,
        0xE1 => is_unload(registers),
        0x2F | 0x47 => [0x04, 0x10, 0x30, 0xE0].contains(&log),
        0xEF => subcommand == 0x07,
        0xB0 if subcommand == 0xD5 => [0x30, 0xE0].contains(&log),
        0xB0 => subcommand == 0xDA,
        _ => false,
    }
}

/// "FEATURE 7:0 = 44h and LBA 27:0 = 0554E4Ch."
fn is_unload(registers: &Registers) -> bool {
    let low = registers.lba() & 0xFFF_FFFF;
    registers.feature & 0xFF == 0x44 && low == 0x055_4E4C
}

/// "COUNT 0 means 65,536 sectors."
fn last_sector(registers: &Registers) -> u64 {
    let sectors = match registers.count {
        0 => 65_536,
        count => u64::from(count),
    };
    registers.lba() + sectors - 1
}
