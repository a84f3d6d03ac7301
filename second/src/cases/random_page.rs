//! Pages from a seed: a good one, then up to three changes that often offend.

use super::draft::Draft;
use super::rng::Rng;
use crate::rules::layout::descriptor;

/// A page of at most `most` pages (now and then of a broken length).
pub fn random_page(rng: &mut Rng, most: u64) -> Vec<u8> {
    let pages = 1 + rng.below(most) as usize;
    let room = 16 * pages as u32 - 1;
    let number = random_number(rng, room);
    let returned = number.min(room) as usize;
    let mut draft = random_list(rng, pages, number);
    let changes = if rng.once_in(3) { 0 } else { 1 + rng.below(3) };
    for _ in 0..changes {
        draft = change(rng, draft, pages, returned);
    }
    if rng.once_in(25) {
        draft = draft.length(rng.place(512 * pages + 600));
    }
    draft.bytes()
}

/// A list that fits, one that just fits, or one above the room.
fn random_number(rng: &mut Rng, room: u32) -> u32 {
    match rng.below(6) {
        0 => 0,
        1 => room,
        2 => room + 1 + rng.below(40) as u32,
        3 => rng.next() as u32,
        _ => rng.below(u64::from(room)) as u32,
    }
}

/// A good page with random values.
pub fn random_list(rng: &mut Rng, pages: usize, number: u32) -> Draft {
    let returned = number.min(16 * pages as u32 - 1) as usize;
    random_values(rng, Draft::list(pages, number), returned)
}

/// Random values in every field of a good list, reserved ones included.
pub fn random_values(rng: &mut Rng, good: Draft, returned: usize) -> Draft {
    let mut draft = good
        .busy(rng.next() as u32)
        .limit(rng.next() as u16)
        .removed(rng.next() as u16);
    let stride = u64::from(u32::MAX) / (returned as u64 + 1);
    let mut identifier = 0;
    for k in 0..returned {
        let widest = stride.min(1 << (1 + rng.below(26)));
        identifier += 1 + rng.below(widest) as u32;
        draft = random_descriptor(rng, draft, k).identifier(k, identifier);
    }
    draft
}

fn random_descriptor(rng: &mut Rng, draft: Draft, k: usize) -> Draft {
    let mut draft = draft;
    for byte in 0..32 {
        if rng.once_in(3) {
            draft = draft.byte(descriptor(k) + byte, rng.byte());
        }
    }
    let health = random_health(rng);
    let flags = rng.byte() & if health == 0xFF { 0xFF } else { 0xFE };
    let capacity = match rng.below(4) {
        0 => u64::MAX,
        1 => rng.next(),
        _ => rng.below(1 << 40),
    };
    draft
        .health(k, health)
        .flags(k, flags)
        .element_type(k, rng.pick(&[0x01, 0x01, 0x01, 0x00, 0x02, 0xFF]))
        .capacity(k, capacity)
}

/// Any health, the borders of document 01 more often.
pub fn random_health(rng: &mut Rng) -> u8 {
    match rng.below(3) {
        0 => rng.pick(&[0x00, 0x64, 0x65, 0xCF, 0xD0, 0xFE, 0xFF]),
        1 => rng.byte(),
        _ => rng.below(0xD0) as u8,
    }
}

/// One change somewhere; it need not offend.
pub fn change(rng: &mut Rng, draft: Draft, pages: usize, returned: usize) -> Draft {
    let k = rng.place(returned.max(1));
    let padding = descriptor(returned);
    let free = 512 * pages - padding;
    match rng.below(8) {
        0 => draft.returned(rng.below(16 * pages as u64 + 2) as u32),
        1 => draft.number(rng.below(16 * pages as u64 + 2) as u32),
        2 if returned > 0 => draft.identifier(k, 0),
        3 if returned > 0 => draft.identifier(k, rng.next() as u32),
        4 if returned > 0 => draft.flags(k, rng.byte() | 1),
        5 if free > 0 => draft.byte(padding + rng.place(free), rng.byte()),
        6 if returned > 0 => draft.health(k, random_health(rng)),
        _ => draft.byte(rng.place(500), rng.byte()),
    }
}
