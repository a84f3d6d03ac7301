//! REMOVE ELEMENT AND TRUNCATE (7Ch), its steps, and what disturbs them.

use super::answer::Answer;
use super::device::{Device, Note, Position, REST};
use super::request::{Registers, REMOVED, STORAGE};

/// "The state comes with each command".
#[derive(Clone, Copy, Debug, PartialEq, Eq)]
pub enum Security {
    Locked,
    Unlocked,
    Frozen,
}

impl Device {
    /// The checks in document 01's order; its numbers stand at the lines.
    pub fn remove(&mut self, security: Security, registers: &Registers) -> Answer {
        let identifier = u32::from(registers.feature) * 65_536 + u32::from(registers.count);
        let lba = registers.lba();
        // 1: "under locked, unlocked, frozen this command is aborted, runs, runs"
        if security == Security::Locked {
            return Answer::Locked;
        }
        // 2
        if self.under_way() {
            return Answer::InProgress;
        }
        // 3
        let element = match self.find(identifier) {
            Some(element) if element.element_type == STORAGE => *element,
            _ => return Answer::InvalidField,
        };
        // 4: "no element or address changes, but a failed mark is cleared"
        if element.health == REMOVED {
            self.failed = false;
            return Answer::Done;
        }
        // 5
        if self.limit != 0 && self.removed_count() >= self.limit {
            return Answer::InvalidField;
        }
        // 6
        let difference = i128::from(self.native) - i128::from(element.blocks);
        if difference < 1 {
            return Answer::InvalidField;
        }
        // 7
        let difference = difference as u64;
        if lba != 0 && lba > difference {
            return Answer::InvalidField;
        }
        let new = if lba == 0 { difference } else { lba };
        self.accept(identifier, new)
    }

    /// "Acceptance makes one store: the note."
    fn accept(&mut self, identifier: u32, new: u64) -> Answer {
        self.note = Some(Note {
            identifier,
            old: self.native,
            new,
        });
        self.position = Position::Work(1);
        Answer::Done
    }

    /// The next step, of the work or of winding up: one store each.
    pub fn step(&mut self) -> Answer {
        let note = match self.note {
            Some(note) => note,
            None => return Answer::NoRemoval,
        };
        match self.position {
            Position::Work(number) => self.work(number, note),
            Position::Wind(number) => self.wind_up(number, note),
        }
        Answer::Done
    }

    /// "Work steps, one store each".
    fn work(&mut self, number: u8, note: Note) {
        self.position = Position::Work(number + 1);
        match number {
            1 => self.native = note.new,
            2 => self.accessible = note.new,
            3 => self.store_health(note.identifier, REMOVED),
            4 => self.failed = false,
            _ => self.empty_note(),
        }
    }

    /// "Winding up": addresses first, then the mark, then the note.
    fn wind_up(&mut self, number: u8, note: Note) {
        self.position = Position::Wind(number + 1);
        match number {
            1 => self.native = self.wound_up_address(note),
            2 => self.accessible = self.wound_up_address(note),
            3 => self.failed = true,
            _ => self.empty_note(),
        }
    }

    /// "to the new value if the noted element is FFh, else the old".
    fn wound_up_address(&self, note: Note) -> u64 {
        match self.find(note.identifier) {
            Some(element) if element.health == REMOVED => note.new,
            _ => note.old,
        }
    }

    fn empty_note(&mut self) {
        self.note = None;
        self.position = REST;
    }

    /// "A .. media error with an empty note answers 10".
    pub fn media_error(&mut self) -> Answer {
        if !self.under_way() {
            return Answer::NoRemoval;
        }
        self.position = Position::Wind(1);
        Answer::Done
    }

    /// "a power cut then answers 0 and changes nothing".
    pub fn power_cut(&mut self) -> Answer {
        if self.under_way() {
            self.position = Position::Wind(1);
        }
        Answer::Done
    }

    /// "COMRESET, hardware reset and software reset answer 0 and change nothing".
    pub fn reset(&mut self) -> Answer {
        Answer::Done
    }
}
