//! "What a call says": the numbers of document 01 and their sense.

use std::fmt;

/// One variant for each number of the table.
#[derive(Clone, Copy, Debug, PartialEq, Eq)]
pub enum Answer {
    Done,
    Locked,
    InProgress,
    Failed,
    InvalidField,
    Beyond,
    NotNamed,
    SmallBuffer,
    TableRefused,
    PageRefused { place: usize },
    NoRemoval,
    GradeRefused,
}

impl Answer {
    /// The column "No.".
    pub fn number(self) -> u8 {
        match self {
            Answer::Done => 0,
            Answer::Locked => 1,
            Answer::InProgress => 2,
            Answer::Failed => 3,
            Answer::InvalidField => 4,
            Answer::Beyond => 5,
            Answer::NotNamed => 6,
            Answer::SmallBuffer => 7,
            Answer::TableRefused => 8,
            Answer::PageRefused { .. } => 9,
            Answer::NoRemoval => 10,
            Answer::GradeRefused => 11,
        }
    }

    /// The column "Sense key/ASC/ASCQ"; none is not 0/00/00.
    pub fn sense(self) -> Option<(u8, u8, u8)> {
        match self {
            Answer::Done | Answer::Locked => Some((0x0, 0x00, 0x00)),
            Answer::InProgress => Some((0x2, 0x04, 0x24)),
            Answer::Failed => Some((0x3, 0x31, 0x04)),
            Answer::InvalidField => Some((0x5, 0x24, 0x00)),
            Answer::Beyond => Some((0x5, 0x21, 0x00)),
            Answer::NotNamed => Some((0x5, 0x20, 0x00)),
            _ => None,
        }
    }
}

/// The bench's form: the number, then the sense or, for a page, the place.
impl fmt::Display for Answer {
    fn fmt(&self, out: &mut fmt::Formatter<'_>) -> fmt::Result {
        write!(out, "{}", self.number())?;
        if let Some((key, asc, ascq)) = self.sense() {
            write!(out, " {:X}/{:02X}/{:02X}", key, asc, ascq)?;
        }
        if let Answer::PageRefused { place } = self {
            write!(out, " at {}", place)?;
        }
        Ok(())
    }
}
