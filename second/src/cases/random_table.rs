//! Tables from a seed: mostly good ones, some with a fault.

use super::rng::Rng;
use super::script_text::{other, storage};
use crate::rules::table::Element;

pub fn random_table(rng: &mut Rng) -> Vec<Element> {
    let number = match rng.below(24) {
        0 => 128,
        1 => 129,
        2 => rng.below(140),
        3 => 16,
        _ => 1 + rng.below(6),
    };
    let widest = rng.pick(&[1, 2, 0x100, 0x1_0000, 0x80_0000]);
    let most_blocks = rng.pick(&[2, 50, 3000, 3000, 70_000, (1 << 48) / (number + 1)]);
    let mut identifier = 0;
    let mut table = Vec::new();
    for _ in 0..number {
        identifier += 1 + rng.below(widest) as u32;
        table.push(random_element(rng, identifier, most_blocks));
    }
    if rng.once_in(8) {
        spoil(rng, &mut table);
    }
    table
}

fn random_element(rng: &mut Rng, identifier: u32, most_blocks: u64) -> Element {
    let health = match rng.below(4) {
        0 => rng.pick(&[0x00, 0x64, 0x65, 0xCF]),
        _ => rng.below(0xD0) as u8,
    };
    let mut element = if rng.once_in(5) {
        other(identifier, rng.pick(&[0x00, 0x02, 0xFF]))
    } else {
        storage(identifier, 0, rng.below(most_blocks + 1))
    };
    element.health = health;
    element.unreported = rng.once_in(4);
    element
}

/// One change that most often makes the table a bad one.
fn spoil(rng: &mut Rng, table: &mut [Element]) {
    if table.is_empty() {
        return;
    }
    let k = rng.place(table.len());
    let before = table[k.saturating_sub(1)].identifier;
    match rng.below(6) {
        0 => table[k].identifier = 0,
        1 => table[k].identifier = before,
        2 => table[k].health = rng.pick(&[0xD0, 0xFE, 0xFF]),
        3 => table[k].element_type = 0x02,
        4 => table[k].blocks = rng.pick(&[u64::MAX, 1 << 48, (1 << 48) + 1, 1 << 63]),
        _ => table[k].identifier = rng.next() as u32,
    }
}

pub fn random_limit(rng: &mut Rng, number: usize) -> u16 {
    match rng.below(12) {
        0 => 128,
        1 => 129,
        2 => rng.next() as u16,
        3 => number as u16,
        4..=6 => 0,
        _ => 1 + rng.below(4) as u16,
    }
}
