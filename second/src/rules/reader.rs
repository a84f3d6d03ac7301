//! "The reader. Given a page and the request it answers."

use super::layout::{self, descriptor, Descriptor, Header, Order};
use super::request::{Registers, Request, Wanted, REMOVED};

/// What accepted bytes say.
#[derive(Clone, Debug, PartialEq, Eq)]
pub struct Reading {
    pub header: Header,
    pub descriptors: Vec<Descriptor>,
}

/// The page's contents, or the place of its first offence (number 9).
pub fn read(page: &[u8], registers: &Registers) -> Result<Reading, usize> {
    // "A request that would get 4 gets 9 at place 0."
    let request = Request::of(registers).ok_or(0usize)?;
    check_length(page, &request)?;
    let header = Header::read(Order::Little, page);
    check_returned(&header, &request)?;
    let returned = header.returned as usize;
    let descriptors = read_descriptors(Order::Little, page, returned, &request.wanted)?;
    check_padding(page, &header)?;
    Ok(Reading {
        header,
        descriptors,
    })
}

/// "length not 512p (place 0)".
fn check_length(page: &[u8], request: &Request) -> Result<(), usize> {
    if page.len() != request.bytes() {
        return Err(0);
    }
    Ok(())
}

/// "returned not the smaller of N and 16p - 1 (4)".
fn check_returned(header: &Header, request: &Request) -> Result<(), usize> {
    if header.returned != header.number.min(request.room()) {
        return Err(layout::RETURNED);
    }
    Ok(())
}

/// So many descriptors: "first offence reported, descriptor by descriptor".
pub fn read_descriptors(
    order: Order,
    bytes: &[u8],
    number: usize,
    wanted: &Wanted,
) -> Result<Vec<Descriptor>, usize> {
    let mut descriptors = Vec::new();
    let mut before = 0;
    for k in 0..number {
        let found = Descriptor::read(order, &bytes[descriptor(k)..]);
        check_descriptor(&found, before, wanted).map_err(|byte| descriptor(k) + byte)?;
        before = found.identifier;
        descriptors.push(found);
    }
    Ok(descriptors)
}

/// The first offence within one descriptor. `before` is the identifier of the
/// one before, or 0: "identifier 0, .. or not above the one before".
fn check_descriptor(found: &Descriptor, before: u32, wanted: &Wanted) -> Result<(), usize> {
    if found.identifier <= before {
        return Err(layout::IDENTIFIER);
    }
    if !wanted.takes_identifier(found.identifier) {
        return Err(layout::IDENTIFIER);
    }
    if found.restoration && found.health != REMOVED {
        return Err(layout::FLAGS);
    }
    if !wanted.takes_type(found.element_type) {
        return Err(layout::TYPE);
    }
    if !wanted.takes_health(found.health) {
        return Err(layout::HEALTH);
    }
    Ok(())
}

/// "then the first non-zero padding byte".
fn check_padding(page: &[u8], header: &Header) -> Result<(), usize> {
    let start = descriptor(header.returned as usize);
    match page[start..].iter().position(|&byte| byte != 0) {
        Some(offset) => Err(start + offset),
        None => Ok(()),
    }
}
