//! The bench: runs the lines of a script on one device and answers each call.

use std::fmt::Write;

use super::answer::Answer;
use super::device::Device;
use super::layout::ROW;
use super::listing::{capacity_text, header_line};
use super::reader::{read, Reading};
use super::request::{Registers, Request};
use super::script::{meaning, Call, Command, Line};
use super::table::{Element, MOST_ELEMENTS};
use super::walk::{next, Next};

/// What a lent buffer holds before the call.
pub const FILLING: u8 = 0xA5;

/// The bench between two lines.
pub struct Bench {
    offered: Vec<Element>,
    pub device: Option<Device>,
    pub page: Vec<u8>,
    pub text: String,
}

/// The answers to a whole script, from an empty bench.
pub fn run(script: &[u8]) -> String {
    after(script).text
}

/// The bench after a whole script, empty before it.
pub fn after(script: &[u8]) -> Bench {
    let mut bench = Bench::new();
    for line in script.split(|&byte| byte == b'\n') {
        bench.line(line);
    }
    bench
}

impl Bench {
    pub fn new() -> Bench {
        Bench {
            offered: Vec::new(),
            device: None,
            page: Vec::new(),
            text: String::new(),
        }
    }

    /// Runs one line; what it answers is added to `text`.
    pub fn line(&mut self, line: &[u8]) {
        match meaning(line) {
            Line::PassedOver => {}
            Line::NotACall => self.say("not a call"),
            Line::Call(call) => self.call(call),
        }
    }

    /// The calls that need no device; the others go on to it.
    fn call(&mut self, call: Call) {
        match call {
            Call::Element(element) => self.offer(element),
            Call::Make { limit } => self.make(limit),
            Call::Length(length) => self.set_length(length),
            Call::Poke { place, byte } => self.poke(place, byte),
            Call::Read(registers) => self.read(&registers),
            Call::Next(registers) => self.next(&registers),
            Call::ScsiRead(request) => self.scsiread(&request),
            Call::ToScsi(call) => self.toscsi(&call),
            Call::ToAta(call) => self.toata(&call),
            _ => match self.device.take() {
                None => self.say("no device"),
                Some(mut device) => {
                    self.device_call(&mut device, call);
                    self.device = Some(device);
                }
            },
        }
    }

    fn device_call(&mut self, device: &mut Device, call: Call) {
        match call {
            Call::Command(command) => self.command(device, &command),
            Call::Step => self.answer(device.step()),
            Call::Error => self.answer(device.media_error()),
            Call::Cut => self.answer(device.power_cut()),
            Call::Reset => self.answer(device.reset()),
            Call::Grade { identifier, health } => self.answer(device.grade(identifier, health)),
            Call::Scsi(call) => self.scsi(device, &call),
            _ => self.cells(device),
        }
    }

    pub fn say(&mut self, line: &str) {
        self.text.push_str(line);
        self.text.push('\n');
    }

    pub fn answer(&mut self, answer: Answer) {
        self.say(&answer.to_string());
    }

    /// "the list keeps its first 129".
    fn offer(&mut self, element: Element) {
        if self.offered.len() <= MOST_ELEMENTS {
            self.offered.push(element);
        }
    }

    /// "a new device (0), or 8 and the device that was there stays".
    fn make(&mut self, limit: u16) {
        let offered = std::mem::take(&mut self.offered);
        match Device::make(&offered, limit) {
            Ok(device) => {
                self.device = Some(device);
                self.answer(Answer::Done);
            }
            Err(refusal) => self.answer(refusal),
        }
    }

    /// The front call with a lent buffer; a page that is written is kept.
    fn command(&mut self, device: &mut Device, command: &Command) {
        let mut buffer = vec![FILLING; command.length];
        let answer = device.command(
            command.security,
            command.code,
            &command.registers,
            &mut buffer,
        );
        self.answer(answer);
        let mut written = 0;
        if command.code == 0x12 && answer == Answer::Done {
            written = Request::of(&command.registers).map_or(0, |request| request.bytes());
            self.page = buffer[..written].to_vec();
            self.show_page();
        }
        self.say_touched(&buffer, written);
    }

    /// The first byte that is left alone and not as it was, if there is one.
    pub fn say_touched(&mut self, buffer: &[u8], written: usize) {
        let touched = buffer[written..].iter().position(|&byte| byte != FILLING);
        if let Some(offset) = touched {
            self.say(&format!("touched {}", written + offset));
        }
    }

    /// Rows of 32 bytes; "the run of all-zero rows at its end is one line".
    pub fn show_page(&mut self) {
        let rows = self.page.len() / ROW;
        let zero = |row: &[u8]| row.iter().all(|&byte| byte == 0);
        let zeros = self.page.rchunks(ROW).take_while(|row| zero(row)).count();
        let shown = rows_text(&self.page[..ROW * (rows - zeros)]);
        self.text.push_str(&shown);
        if zeros > 0 {
            self.say(&format!("zeros {}", zeros));
        }
    }

    fn cells(&mut self, device: &Device) {
        let note = match device.note {
            None => String::from("-"),
            Some(note) => format!("{:08X} {} {}", note.identifier, note.old, note.new),
        };
        self.say(&format!(
            "limit {} native {} accessible {} failed {} note {} position {}",
            device.limit,
            device.native,
            device.accessible,
            u8::from(device.failed),
            note,
            device.position
        ));
        for one in &device.elements {
            self.say(&format!(
                "{:08X} {:02X} {:02X} {} {}",
                one.identifier,
                one.element_type,
                one.health,
                one.blocks,
                u8::from(one.unreported)
            ));
        }
    }

    /// "cuts it or lengthens it with zeros".
    fn set_length(&mut self, length: usize) {
        self.page.resize(length, 0);
        self.say(&format!("length {}", length));
    }

    /// "changes a byte and answers nothing, or `outside` past its end".
    fn poke(&mut self, place: usize, byte: u8) {
        match self.page.get_mut(place) {
            Some(there) => *there = byte,
            None => self.say("outside"),
        }
    }

    /// The reader on the kept page.
    fn read(&mut self, registers: &Registers) {
        match read(&self.page, registers) {
            Ok(reading) => self.show_reading(&reading),
            Err(place) => self.answer(Answer::PageRefused { place }),
        }
    }

    /// The walk's call on the kept page.
    fn next(&mut self, registers: &Registers) {
        match next(&self.page, registers) {
            Ok(Next::Ask(start)) => self.say(&format!("ask {:08X}", start)),
            Ok(Next::End) => self.say("end"),
            Err(place) => self.answer(Answer::PageRefused { place }),
        }
    }

    pub fn show_reading(&mut self, reading: &Reading) {
        self.say("0");
        self.text.push_str(&header_line(&reading.header));
        for one in &reading.descriptors {
            self.say(&format!(
                "{:08X} {} {:02X} {:02X} {}",
                one.identifier,
                u8::from(one.restoration),
                one.element_type,
                one.health,
                capacity_text(one.capacity)
            ));
        }
    }
}

/// Upper hex digits, a line for each 32 bytes; the last may be shorter.
pub fn rows_text(bytes: &[u8]) -> String {
    let mut text = String::new();
    for row in bytes.chunks(ROW) {
        for byte in row {
            // Writing to a string cannot fail.
            let _ = write!(text, "{:02X}", byte);
        }
        text.push('\n');
    }
    text
}
