//! Request 2026-03: "turn one kind into the other". "Converting there and back
//! yields the same elements and header numbers".

use super::answer::Answer;
use super::layout::{self, lay_out, Order};
use super::listing::{ata_request, scsi_request};
use super::reader;
use super::request::Registers;
use super::scsi::{self, lend, ScsiRequest};

/// An ATA page that answers a request, as SCSI data in a lent buffer: how many
/// bytes; "last, on writing or converting, 7".
pub fn to_scsi(page: &[u8], registers: &Registers, buffer: &mut [u8]) -> Result<usize, Answer> {
    lend(&scsi_of(page, registers).map_err(refused)?, buffer)
}

/// SCSI data that answers a request, as an ATA page in a lent buffer.
pub fn to_ata(
    data: &[u8],
    request: &ScsiRequest,
    pages: u16,
    buffer: &mut [u8],
) -> Result<usize, Answer> {
    lend(&ata_of(data, request, pages).map_err(refused)?, buffer)
}

/// The converter's SCSI data: the page on its input answers the listing's request.
pub fn input_to_scsi(page: &[u8]) -> Result<Vec<u8>, usize> {
    scsi_of(page, &ata_request(page)?)
}

/// The converter's ATA page.
pub fn input_to_ata(data: &[u8], pages: u16) -> Result<Vec<u8>, usize> {
    ata_of(data, &scsi_request(data)?, pages)
}

fn refused(place: usize) -> Answer {
    Answer::PageRefused { place }
}

/// The whole data, or the place of the refusal: the ATA reader's, then "9 at 4 for
/// a cut list".
fn scsi_of(page: &[u8], registers: &Registers) -> Result<Vec<u8>, usize> {
    let reading = reader::read(page, registers)?;
    if reading.header.returned < reading.header.number {
        return Err(layout::RETURNED);
    }
    Ok(lay_out(Order::Big, &reading.header, &reading.descriptors))
}

/// The page, or the place of the refusal: the SCSI reader's, then "9 at 4 for a cut
/// list or one above 16p - 1 for the pages asked".
fn ata_of(data: &[u8], request: &ScsiRequest, pages: u16) -> Result<Vec<u8>, usize> {
    let found = scsi::read(data, request)?;
    if found.is_cut() {
        return Err(layout::RETURNED);
    }
    let header = &found.reading.header;
    if i64::from(header.number) > room(pages) {
        return Err(layout::RETURNED);
    }
    let mut page = lay_out(Order::Little, header, &found.reading.descriptors);
    page.resize(512 * usize::from(pages), 0);
    Ok(page)
}

/// 16p - 1: below 0 for no pages, so that no list fits.
fn room(pages: u16) -> i64 {
    16 * i64::from(pages) - 1
}
