//! Request 2026-03, "Pages from SCSI carriers": status data has "the same header
//! and descriptors in big-endian order .., cut at an allocation length in bytes".

use super::answer::Answer;
use super::device::Device;
use super::layout::{self, lay_out, Header, Order, ROW};
use super::reader::{read_descriptors, Reading};
use super::request::Wanted;

/// Filter, report type and starting element, each as it came.
#[derive(Clone, Copy, Debug, PartialEq, Eq)]
pub struct ScsiRequest {
    pub filter: u8,
    pub report_type: u8,
    pub start: u32,
}

impl ScsiRequest {
    /// "4 for filter or report type as in 01", wild values among them: `None`.
    fn wanted(&self) -> Option<Wanted> {
        Wanted::of(
            u16::from(self.filter),
            u16::from(self.report_type),
            self.start,
        )
    }
}

impl Device {
    /// How many bytes are written: the smaller of the allocation length and that
    /// of the whole data. 4 comes first; "last, .. 7".
    pub fn scsi_status(
        &self,
        request: &ScsiRequest,
        allocation: u32,
        buffer: &mut [u8],
    ) -> Result<usize, Answer> {
        let wanted = request.wanted().ok_or(Answer::InvalidField)?;
        let mut data = self.scsi_data(&wanted);
        data.truncate(allocation as usize);
        lend(&data, buffer)
    }

    /// "N and returned both count the whole list, cut or not, and nothing follows
    /// the last descriptor."
    fn scsi_data(&self, wanted: &Wanted) -> Vec<u8> {
        let list = self.list(wanted);
        let number = list.len() as u32;
        lay_out(Order::Big, &self.header(number, number), &list)
    }
}

/// "7 for a buffer below the bytes to be written"; what is past these stays.
pub fn lend(bytes: &[u8], buffer: &mut [u8]) -> Result<usize, Answer> {
    if buffer.len() < bytes.len() {
        return Err(Answer::SmallBuffer);
    }
    buffer[..bytes.len()].copy_from_slice(bytes);
    Ok(bytes.len())
}

/// What accepted data says: the header's numbers and the whole descriptors.
pub struct ScsiReading {
    pub reading: Reading,
    /// "a descriptor cut through is dropped and this is reported".
    torn: bool,
}

impl ScsiReading {
    /// Descriptors are missing, or a part of one is.
    pub fn is_cut(&self) -> bool {
        self.reading.descriptors.len() < self.reading.header.number as usize
    }

    /// `cut K of N`, or `torn K of N` where one was cut through; of a whole list
    /// nothing.
    pub fn end_line(&self) -> String {
        if !self.is_cut() {
            return String::new();
        }
        let word = if self.torn { "torn" } else { "cut" };
        let whole = self.reading.descriptors.len();
        format!("{} {} of {}\n", word, whole, self.reading.header.number)
    }
}

/// The data's contents, or the place of its first offence (number 9).
pub fn read(data: &[u8], request: &ScsiRequest) -> Result<ScsiReading, usize> {
    // "length below 32 or a request with a filter or report type due 4 (0)"
    let wanted = request.wanted().ok_or(0usize)?;
    if data.len() < ROW {
        return Err(0);
    }
    let header = Header::read(Order::Big, data);
    check_returned(&header)?;
    let whole = whole_descriptors(data, &header);
    let descriptors = read_descriptors(Order::Big, data, whole, &wanted)?;
    check_end(data, &header)?;
    Ok(ScsiReading {
        reading: Reading {
            header,
            descriptors,
        },
        torn: data.len() % ROW != 0,
    })
}

/// "returned not N (4)".
fn check_returned(header: &Header) -> Result<(), usize> {
    if header.returned != header.number {
        return Err(layout::RETURNED);
    }
    Ok(())
}

/// Descriptors of the list whose 32 bytes are all there.
fn whole_descriptors(data: &[u8], header: &Header) -> usize {
    let there = data.len() / ROW - 1;
    there.min(header.number as usize)
}

/// "then the first byte past the list". N x 32 has up to 37 bits.
fn check_end(data: &[u8], header: &Header) -> Result<(), usize> {
    let end = (u64::from(header.number) + 1) * ROW as u64;
    if data.len() as u64 > end {
        return Err(end as usize);
    }
    Ok(())
}
