//! GET PHYSICAL ELEMENT STATUS (12h): the pages that the device writes.

use super::answer::Answer;
use super::device::Device;
use super::layout::{lay_out, Descriptor, Header, Order, UNREPORTED};
use super::request::{Registers, Request, Wanted};
use super::table::Element;

impl Device {
    /// Checks 4, "then the buffer below 512p bytes: 7. Allowed during a removal."
    pub fn status(&self, registers: &Registers, buffer: &mut [u8]) -> Answer {
        let request = match Request::of(registers) {
            Some(request) => request,
            None => return Answer::InvalidField,
        };
        if buffer.len() < request.bytes() {
            return Answer::SmallBuffer;
        }
        // "Exactly 512p bytes are written."
        buffer[..request.bytes()].copy_from_slice(&self.page(&request));
        Answer::Done
    }

    fn page(&self, request: &Request) -> Vec<u8> {
        let mut list = self.list(&request.wanted);
        let number = list.len() as u32;
        let returned = number.min(request.room());
        list.truncate(returned as usize);
        let mut page = lay_out(Order::Little, &self.header(number, returned), &list);
        // "Then zeros."
        page.resize(request.bytes(), 0);
        page
    }

    /// "8..11 noted element or 0; 12..13 limit; 14..15 number at FFh".
    pub fn header(&self, number: u32, returned: u32) -> Header {
        Header {
            number,
            returned,
            busy: self.note.map_or(0, |note| note.identifier),
            limit: self.limit,
            removed: self.removed_count(),
        }
    }

    /// "The list": start, report type and filter.
    pub fn list(&self, wanted: &Wanted) -> Vec<Descriptor> {
        self.elements
            .iter()
            .filter(|one| wanted.takes_identifier(one.identifier))
            .filter(|one| wanted.takes_type(one.element_type))
            .filter(|one| wanted.takes_health(one.health))
            .map(shown)
            .collect()
    }
}

/// "restoration allowed, here 0; .. block count, or all ones if unreported".
fn shown(element: &Element) -> Descriptor {
    let capacity = if element.unreported {
        UNREPORTED
    } else {
        element.blocks
    };
    Descriptor {
        identifier: element.identifier,
        restoration: false,
        element_type: element.element_type,
        health: element.health,
        capacity,
    }
}
