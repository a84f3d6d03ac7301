//! "Table and cells": the records offered for a new device.

use super::request::STORAGE;

/// "1 to 128 elements"; the limit has the same bound.
pub const MOST_ELEMENTS: usize = 128;
/// "a health 00h to CFh".
pub const MOST_HEALTH: u8 = 0xCF;

#[derive(Clone, Copy, Debug, PartialEq, Eq)]
pub struct Element {
    pub identifier: u32,
    pub element_type: u8,
    pub health: u8,
    pub blocks: u64,
    /// "a flag `capacity unreported`".
    pub unreported: bool,
}

/// The starting maximum address, or `None`: "Any other table is refused (8)".
pub fn check(elements: &[Element], limit: u16) -> Option<u64> {
    let count_fits = (1..=MOST_ELEMENTS).contains(&elements.len());
    let limit_fits = usize::from(limit) <= MOST_ELEMENTS;
    let good = count_fits && limit_fits && ascending(elements) && elements.iter().all(sound);
    if !good {
        return None;
    }
    starting_maximum(elements)
}

/// "identifiers 1 to FFFF_FFFFh, strictly ascending".
fn ascending(elements: &[Element]) -> bool {
    let mut before = 0;
    for element in elements {
        if element.identifier <= before {
            return false;
        }
        before = element.identifier;
    }
    true
}

/// Health in its range; "a type other than 01h has block count 0".
fn sound(element: &Element) -> bool {
    element.health <= MOST_HEALTH && (element.element_type == STORAGE || element.blocks == 0)
}

/// "The blocks sum to between 2 and 2^48; the starting maximum address is the
/// sum minus 1." 128 counts of 64 bits fit in 128 bits.
fn starting_maximum(elements: &[Element]) -> Option<u64> {
    let sum: u128 = elements.iter().map(|one| u128::from(one.blocks)).sum();
    if !(2..=1 << 48).contains(&sum) {
        return None;
    }
    Some(sum as u64 - 1)
}
