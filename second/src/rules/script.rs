//! The bench language: what a line says.

use super::removal::Security;
use super::request::Registers;
use super::scsi::ScsiRequest;
use super::table::Element;

/// A longer line is no call, whatever it holds.
const MOST_LINE: usize = 200;
/// LENGTH and PLACE go up to 10000h.
pub const MOST_LENGTH: usize = 0x1_0000;

#[derive(Clone, Copy, Debug, PartialEq, Eq)]
pub struct Command {
    pub security: Security,
    pub code: u8,
    pub registers: Registers,
    pub length: usize,
}

/// SCSI data asked of the device.
#[derive(Clone, Copy, Debug, PartialEq, Eq)]
pub struct Scsi {
    pub request: ScsiRequest,
    pub allocation: u32,
    pub length: usize,
}

/// The kept page as SCSI data.
#[derive(Clone, Copy, Debug, PartialEq, Eq)]
pub struct ToScsi {
    pub registers: Registers,
    pub length: usize,
}

/// The kept SCSI data as a page.
#[derive(Clone, Copy, Debug, PartialEq, Eq)]
pub struct ToAta {
    pub request: ScsiRequest,
    pub pages: u16,
    pub length: usize,
}

#[derive(Clone, Copy, Debug, PartialEq, Eq)]
pub enum Call {
    Element(Element),
    Make { limit: u16 },
    Command(Command),
    Step,
    Error,
    Cut,
    Reset,
    Grade { identifier: u32, health: u8 },
    Cells,
    Length(usize),
    Poke { place: usize, byte: u8 },
    Read(Registers),
    Next(Registers),
    Scsi(Scsi),
    ScsiRead(ScsiRequest),
    ToScsi(ToScsi),
    ToAta(ToAta),
}

/// What a line is.
#[derive(Clone, Copy, Debug, PartialEq, Eq)]
pub enum Line {
    PassedOver,
    Call(Call),
    NotACall,
}

/// The meaning of a line, given without its newline.
pub fn meaning(line: &[u8]) -> Line {
    if line.len() > MOST_LINE {
        return Line::NotACall;
    }
    let words: Vec<&[u8]> = line
        .split(|&byte| byte == b' ')
        .filter(|word| !word.is_empty())
        .collect();
    if words.is_empty() || words[0].starts_with(b"#") {
        return Line::PassedOver;
    }
    match call_of(words[0], &words[1..]) {
        Some(call) => Line::Call(call),
        None => Line::NotACall,
    }
}

/// "one of the calls below with exactly its words".
fn call_of(name: &[u8], words: &[&[u8]]) -> Option<Call> {
    match (name, words) {
        (b"element", [_, _, _, _, _]) => element_of(words),
        (b"make", [limit]) => Some(Call::Make {
            limit: number16(limit)?,
        }),
        (b"command", [state, code, feature, count, lba, length]) => Some(Call::Command(Command {
            security: security_of(state)?,
            code: number8(code)?,
            registers: registers_of(feature, count, lba)?,
            length: length_of(length)?,
        })),
        (b"step", []) => Some(Call::Step),
        (b"error", []) => Some(Call::Error),
        (b"cut", []) => Some(Call::Cut),
        (b"comreset", []) => Some(Call::Reset),
        (b"hardreset", []) => Some(Call::Reset),
        (b"softreset", []) => Some(Call::Reset),
        (b"grade", [identifier, health]) => Some(Call::Grade {
            identifier: number32(identifier)?,
            health: number8(health)?,
        }),
        (b"cells", []) => Some(Call::Cells),
        (b"length", [length]) => Some(Call::Length(length_of(length)?)),
        (b"poke", [place, byte]) => Some(Call::Poke {
            place: length_of(place)?,
            byte: number8(byte)?,
        }),
        (b"read", [feature, count, lba]) => Some(Call::Read(registers_of(feature, count, lba)?)),
        (b"next", [feature, count, lba]) => Some(Call::Next(registers_of(feature, count, lba)?)),
        _ => scsi_call_of(name, words),
    }
}

/// The calls of request 2026-03.
fn scsi_call_of(name: &[u8], words: &[&[u8]]) -> Option<Call> {
    match (name, words) {
        (b"scsi", [filter, report_type, start, allocation, length]) => Some(Call::Scsi(Scsi {
            request: scsi_request_of(filter, report_type, start)?,
            allocation: number32(allocation)?,
            length: length_of(length)?,
        })),
        (b"scsiread", [filter, report_type, start]) => {
            Some(Call::ScsiRead(scsi_request_of(filter, report_type, start)?))
        }
        (b"toscsi", [feature, count, lba, length]) => Some(Call::ToScsi(ToScsi {
            registers: registers_of(feature, count, lba)?,
            length: length_of(length)?,
        })),
        (b"toata", [filter, report_type, start, pages, length]) => Some(Call::ToAta(ToAta {
            request: scsi_request_of(filter, report_type, start)?,
            pages: number16(pages)?,
            length: length_of(length)?,
        })),
        _ => None,
    }
}

/// `FEATURE COUNT LBA`.
fn registers_of(feature: &[u8], count: &[u8], lba: &[u8]) -> Option<Registers> {
    Some(Registers::new(
        number16(feature)?,
        number16(count)?,
        number64(lba)?,
    ))
}

/// `FILTER TYPE START`.
fn scsi_request_of(filter: &[u8], report_type: &[u8], start: &[u8]) -> Option<ScsiRequest> {
    Some(ScsiRequest {
        filter: number8(filter)?,
        report_type: number8(report_type)?,
        start: number32(start)?,
    })
}

/// `element ID TYPE HEALTH BLOCKS FLAG`.
fn element_of(words: &[&[u8]]) -> Option<Call> {
    Some(Call::Element(Element {
        identifier: number32(words[0])?,
        element_type: number8(words[1])?,
        health: number8(words[2])?,
        blocks: number64(words[3])?,
        unreported: number(words[4], 1)? == 1,
    }))
}

fn security_of(word: &[u8]) -> Option<Security> {
    match word {
        b"locked" => Some(Security::Locked),
        b"unlocked" => Some(Security::Unlocked),
        b"frozen" => Some(Security::Frozen),
        _ => None,
    }
}

/// "hexadecimal, 1 to 16 digits in either case, and must fit their field".
fn number(word: &[u8], most: u64) -> Option<u64> {
    if word.is_empty() || word.len() > 16 {
        return None;
    }
    let mut value = 0;
    for &digit in word {
        value = value * 16 + u64::from(char::from(digit).to_digit(16)?);
    }
    if value > most {
        return None;
    }
    Some(value)
}

fn number8(word: &[u8]) -> Option<u8> {
    number(word, u64::from(u8::MAX)).map(|value| value as u8)
}

fn number16(word: &[u8]) -> Option<u16> {
    number(word, u64::from(u16::MAX)).map(|value| value as u16)
}

fn number32(word: &[u8]) -> Option<u32> {
    number(word, u64::from(u32::MAX)).map(|value| value as u32)
}

fn number64(word: &[u8]) -> Option<u64> {
    number(word, u64::MAX)
}

fn length_of(word: &[u8]) -> Option<usize> {
    number(word, MOST_LENGTH as u64).map(|value| value as usize)
}
