//! SCSI data from a seed: a good list, up to two changes that often offend, and a
//! cut anywhere.

use super::draft::Draft;
use super::random_page::{random_health, random_values};
use super::rng::Rng;
use crate::rules::layout::{descriptor, Order};

/// Data with at most `most` descriptors and a little more.
pub fn random_dock(rng: &mut Rng, most: u64) -> Vec<u8> {
    let there = match rng.below(8) {
        0 => most as usize,
        _ => rng.place(most as usize + 1),
    };
    let mut draft = random_values(rng, Draft::dock(there), there);
    if rng.once_in(4) {
        draft = draft.both(longer(rng, there as u32));
    }
    let changes = if rng.once_in(2) { 0 } else { 1 + rng.below(2) };
    for _ in 0..changes {
        draft = damage(rng, draft, there);
    }
    let length = random_length(rng, descriptor(there));
    draft.length(length).bytes()
}

/// A list that goes on; 32 x N above 32 bits now and then.
fn longer(rng: &mut Rng, there: u32) -> u32 {
    match rng.below(4) {
        0 => there | rng.next() as u32,
        1 => 0x0800_0000 * (1 + rng.below(31) as u32) - 1 + rng.below(3) as u32,
        _ => there + 1 + rng.below(3) as u32,
    }
}

/// One change somewhere; it need not offend.
fn damage(rng: &mut Rng, draft: Draft, there: usize) -> Draft {
    let k = rng.place(there.max(1));
    let number = rng.below(there as u64 + 3) as u32;
    match rng.below(10) {
        0 => draft.returned(number),
        1 => draft.number(number),
        2 => draft.both(number),
        3 => draft.in_order(Order::Little).both(there as u32),
        4 if there > 0 => draft.identifier(k, 0),
        5 if there > 0 => draft.identifier(k, rng.next() as u32),
        6 if there > 0 => draft.flags(k, rng.byte() | 1),
        7 if there > 0 => draft.health(k, random_health(rng)),
        _ => draft.byte(rng.place(descriptor(there)), rng.byte()),
    }
}

/// The whole length mostly, else one below it or a little above.
fn random_length(rng: &mut Rng, whole: usize) -> usize {
    match rng.below(8) {
        0 => rng.place(whole),
        1 => whole - 1 - rng.place(32),
        2 => whole - 32 * rng.place(whole / 32),
        3 => whole + 1 + rng.place(70),
        _ => whole,
    }
}

/// Pages to convert to, 0 to 128: those that the data fills, or about so many.
pub fn random_pages(rng: &mut Rng, data: &[u8]) -> u16 {
    let filled = ((data.len() + 511) / 512) as u16;
    let pages = match rng.below(8) {
        0 => filled.saturating_sub(1),
        1 => filled + 1,
        2 => rng.below(129) as u16,
        3 => rng.pick(&[0, 128]),
        _ => filled,
    };
    pages.min(128)
}
