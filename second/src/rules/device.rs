//! The device: table, cells and the position in the step list.

use std::fmt;

use super::answer::Answer;
use super::request::REMOVED;
use super::table::{check, Element, MOST_HEALTH};

/// "the note (empty, or the element, the old maximum, the new one)".
#[derive(Clone, Copy, Debug, PartialEq, Eq)]
pub struct Note {
    pub identifier: u32,
    pub old: u64,
    pub new: u64,
}

/// The step that comes next: a work step 1 to 5 or a winding-up step 1 to 4.
#[derive(Clone, Copy, Debug, PartialEq, Eq)]
pub enum Position {
    Work(u8),
    Wind(u8),
}

/// The position while no removal is under way.
pub const REST: Position = Position::Work(1);

impl fmt::Display for Position {
    fn fmt(&self, out: &mut fmt::Formatter<'_>) -> fmt::Result {
        match self {
            Position::Work(number) => write!(out, "work{}", number),
            Position::Wind(number) => write!(out, "wind{}", number),
        }
    }
}

/// Each element's health is a cell and stands in its record.
#[derive(Clone, Debug, PartialEq, Eq)]
pub struct Device {
    pub limit: u16,
    pub elements: Vec<Element>,
    pub native: u64,
    pub accessible: u64,
    pub failed: bool,
    pub note: Option<Note>,
    pub position: Position,
}

impl Device {
    /// A new device, or 8.
    pub fn make(elements: &[Element], limit: u16) -> Result<Device, Answer> {
        let maximum = check(elements, limit).ok_or(Answer::TableRefused)?;
        Ok(Device {
            limit,
            elements: elements.to_vec(),
            native: maximum,
            accessible: maximum,
            failed: false,
            note: None,
            position: REST,
        })
    }

    /// "A removal is under way exactly while the note is full."
    pub fn under_way(&self) -> bool {
        self.note.is_some()
    }

    /// "number at FFh", over the whole table.
    pub fn removed_count(&self) -> u16 {
        let removed = self.elements.iter().filter(|one| one.health == REMOVED);
        removed.count() as u16
    }

    pub fn find(&self, identifier: u32) -> Option<&Element> {
        self.elements
            .iter()
            .find(|one| one.identifier == identifier)
    }

    /// One store: an element's health.
    pub fn store_health(&mut self, identifier: u32, health: u8) {
        for element in &mut self.elements {
            if element.identifier == identifier {
                element.health = health;
            }
        }
    }

    /// "Grade. Firmware may set an element's health to 00h to CFh at any time."
    pub fn grade(&mut self, identifier: u32, health: u8) -> Answer {
        match self.find(identifier) {
            None => return Answer::GradeRefused,
            Some(element) if element.health == REMOVED => return Answer::GradeRefused,
            Some(_) => {}
        }
        if health > MOST_HEALTH {
            return Answer::GradeRefused;
        }
        self.store_health(identifier, health);
        Answer::Done
    }
}
