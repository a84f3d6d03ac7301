//! The listing program: a page on standard input, "one header and a line for
//! each descriptor .. or `refused 9 at ` and the place"; and SCSI data likewise
//! (request 2026-03).

use super::answer::Answer;
use super::layout::{Descriptor, Header, UNREPORTED};
use super::reader::{read, Reading};
use super::request::Registers;
use super::scsi::{self, ScsiRequest};

/// "at most 65,536 bytes".
pub const MOST: usize = 65_536;

/// The text, and the program's exit status: 0 listed, 1 refused.
pub struct Listing {
    pub text: String,
    pub status: i32,
}

pub fn list(input: &[u8]) -> Listing {
    let reading = ata_request(input).and_then(|request| read(input, &request));
    listing(reading.map(|reading| text_of(&reading)))
}

/// The same lines, then whether the list was cut.
pub fn list_scsi(input: &[u8]) -> Listing {
    let found = scsi_request(input).and_then(|request| scsi::read(input, &request));
    listing(found.map(|found| text_of(&found.reading) + &found.end_line()))
}

fn listing(text: Result<String, usize>) -> Listing {
    match text {
        Ok(text) => Listing { text, status: 0 },
        Err(place) => Listing {
            text: format!("refused {}\n", Answer::PageRefused { place }),
            status: 1,
        },
    }
}

/// "as an answer to filter 0, report type 0, start 0, and as many pages as the
/// input has (an empty or broken length is refused at 0)".
pub fn ata_request(input: &[u8]) -> Result<Registers, usize> {
    check_most(input)?;
    let pages = (input.len() / 512) as u16;
    Ok(Registers::new(0, pages, 0))
}

/// The same request of SCSI, whose data has any length.
pub fn scsi_request(input: &[u8]) -> Result<ScsiRequest, usize> {
    check_most(input)?;
    Ok(ScsiRequest {
        filter: 0,
        report_type: 0,
        start: 0,
    })
}

/// "longer input is refused at 65536".
fn check_most(input: &[u8]) -> Result<(), usize> {
    if input.len() > MOST {
        return Err(MOST);
    }
    Ok(())
}

fn text_of(reading: &Reading) -> String {
    let mut text = header_line(&reading.header);
    for one in &reading.descriptors {
        text += &format!("{}\n", descriptor_text(one));
    }
    text
}

/// The header line, of a listing and of the bench's `read` alike.
pub fn header_line(header: &Header) -> String {
    format!(
        "number {} returned {} busy {:08X} limit {} removed {}\n",
        header.number, header.returned, header.busy, header.limit, header.removed
    )
}

/// A descriptor's line, of a listing and of a comparison alike.
pub fn descriptor_text(one: &Descriptor) -> String {
    format!("{:08X} {}", one.identifier, values_text(one))
}

/// "type, health in upper hex, then capacity".
pub fn values_text(one: &Descriptor) -> String {
    let capacity = capacity_text(one.capacity);
    format!("{:02X} {:02X} {}", one.element_type, one.health, capacity)
}

/// "capacity, `-` for all ones".
pub fn capacity_text(capacity: u64) -> String {
    if capacity == UNREPORTED {
        return String::from("-");
    }
    capacity.to_string()
}
