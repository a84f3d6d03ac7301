//! Walks over a device that nothing changes (request 2026-04).

use std::iter::successors;

use crate::rules::device::Device;
use crate::rules::request::Registers;
use crate::rules::walk::{next, Next};

/// FEATURE, COUNT and LBA of a request for a page.
pub type Asked = (u16, u16, u64);

/// The requests of a whole walk, the page counts in turn, again and again.
pub fn walk<'a>(
    device: &'a Device,
    feature: u16,
    counts: &'a [u16],
    start: u64,
) -> impl Iterator<Item = Asked> + 'a {
    let mut later = counts.iter().cycle().skip(1);
    successors(Some((feature, counts[0], start)), move |&asked| {
        let start = start_after(device, asked)?;
        Some((feature, *later.next()?, u64::from(start)))
    })
}

/// Where the request after this one starts, if there is one.
fn start_after(device: &Device, (feature, count, lba): Asked) -> Option<u32> {
    let registers = Registers::new(feature, count, lba);
    let mut page = vec![0; 512 * usize::from(count)];
    device.status(&registers, &mut page);
    match next(&page, &registers) {
        Ok(Next::Ask(start)) => Some(start),
        _ => None,
    }
}
