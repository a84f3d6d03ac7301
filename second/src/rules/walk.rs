//! Request 2026-04, "A walk over small pages": a host that "sends one request at a
//! time and starts the next at the last identifier plus one".

use super::reader::read;
use super::request::Registers;

/// What a host does after a page.
#[derive(Clone, Copy, Debug, PartialEq, Eq)]
pub enum Next {
    /// Sends a request with this start.
    Ask(u32),
    End,
}

/// What follows the page that answers a request, or the place of the page's first
/// offence (number 9).
pub fn next(page: &[u8], registers: &Registers) -> Result<Next, usize> {
    let reading = read(page, registers)?;
    // "It ends where N equals returned."
    if reading.header.number == reading.header.returned {
        return Ok(Next::End);
    }
    // A cut list has 16p - 1 descriptors, so there is a last one.
    let last = reading.descriptors.last();
    // "It must never send a start above FFFF_FFFFh", whatever a page says of N.
    let start = last.and_then(|one| one.identifier.checked_add(1));
    Ok(start.map_or(Next::End, Next::Ask))
}
