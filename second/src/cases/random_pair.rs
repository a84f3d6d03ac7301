//! Pairs of pages from a seed: those of a device before and after a session,
//! or those of a list and of a copy with some changes.

use std::collections::BTreeMap;

use super::draft::Draft;
use super::random_page::{change, random_health, random_list};
use super::random_script::Session;
use super::rng::Rng;
use crate::rules::layout::{self, Order, ROW};
use crate::rules::request::REMOVED;

/// The descriptors of a whole list, by their identifiers.
type List = BTreeMap<u32, [u8; ROW]>;

/// Two pages of one length mostly, the older first; changed lists are of at
/// most `most` pages.
pub fn random_pair(rng: &mut Rng, most: u64) -> (Vec<u8>, Vec<u8>) {
    if rng.once_in(2) {
        return session(rng);
    }
    changed_list(rng, most)
}

/// A device's pages before and after some lines of a script.
fn session(rng: &mut Rng) -> (Vec<u8>, Vec<u8>) {
    let least = rng.pick(&[1, 1, 14]);
    let pages = rng.pick(&[1, 1, 1, 2, 9]);
    let mut session = Session::new(rng.next());
    while session.elements() < least {
        session.make();
    }
    let older = session.list_pages(pages);
    for _ in 0..rng.below(100) {
        session.turn();
    }
    (older, session.list_pages(pages))
}

fn changed_list(rng: &mut Rng, most: u64) -> (Vec<u8>, Vec<u8>) {
    let pages = 1 + rng.below(most) as usize;
    let mut older = some_list(rng, pages);
    let mut newer = older.clone();
    for _ in 0..rng.below(6) {
        let list = if rng.once_in(2) {
            &mut older
        } else {
            &mut newer
        };
        alter(rng, list, room(pages));
    }
    (lay_out(rng, &older, pages), lay_out(rng, &newer, pages))
}

/// Descriptors that fit in so many pages.
fn room(pages: usize) -> usize {
    16 * pages - 1
}

/// A list that fits or that is cut; removed elements are frequent in it.
fn some_list(rng: &mut Rng, pages: usize) -> List {
    let number = match rng.below(4) {
        0 => rng.place(4),
        1 => rng.place(room(pages) + 1),
        _ => room(pages) - 1 + rng.place(4),
    };
    let bytes = random_list(rng, pages + 1, number as u32).bytes();
    let mut list = List::new();
    for bytes in bytes.chunks(ROW).skip(1).take(number) {
        let mut row = [0; ROW];
        row.copy_from_slice(bytes);
        if rng.once_in(3) {
            row[layout::HEALTH] = REMOVED;
        }
        list.insert(Order::Little.get32(&row, layout::IDENTIFIER), row);
    }
    list
}

/// One change: an element gone, one more, or one with another value.
fn alter(rng: &mut Rng, list: &mut List, room: usize) {
    let place = match rng.below(4) {
        0 => list.len().min(room).saturating_sub(1),
        1 => room - 1 + rng.place(3),
        _ => rng.place(list.len() + 1),
    };
    let identifier = list.keys().nth(place).copied().unwrap_or(0);
    match (rng.below(6), list.get_mut(&identifier)) {
        (0, Some(_)) => {
            list.remove(&identifier);
        }
        (1, _) | (_, None) => add(rng, list, identifier),
        (_, Some(row)) => alter_row(rng, row),
    }
}

/// One element more, near another one mostly.
fn add(rng: &mut Rng, list: &mut List, near: u32) {
    let random = rng.next() as u32;
    let identifier = match rng.below(6) {
        0 => random,
        1 => u32::MAX,
        2 => near ^ (1 << rng.below(32)),
        3 => near.wrapping_sub(1),
        _ => near.wrapping_add(1),
    };
    let mut row = list.get(&near).copied().unwrap_or([0; ROW]);
    Order::Little.put(&mut row, layout::IDENTIFIER, &identifier.to_le_bytes());
    if identifier > 0 {
        list.entry(identifier).or_insert(row);
    }
}

/// Another value in one field, a reserved one now and then.
fn alter_row(rng: &mut Rng, row: &mut [u8; ROW]) {
    let bit = 1 << rng.below(8);
    match rng.below(6) {
        0 => row[layout::TYPE] ^= bit,
        1 => set_health(row, random_health(rng)),
        2 => {
            set_health(row, REMOVED);
            row[layout::FLAGS] ^= 1;
        }
        3 => row[layout::CAPACITY + rng.place(8)] ^= bit,
        4 => Order::Little.put(row, layout::CAPACITY, &layout::UNREPORTED.to_le_bytes()),
        _ => row[rng.pick(&[0, 3, 8, 12, 24, 31])] ^= bit,
    }
}

/// A health, and a flag that goes with it.
fn set_health(row: &mut [u8; ROW], health: u8) {
    row[layout::HEALTH] = health;
    if health != REMOVED {
        row[layout::FLAGS] &= 0xFE;
    }
}

/// The page of a list under any header; a broken one now and then.
fn lay_out(rng: &mut Rng, list: &List, pages: usize) -> Vec<u8> {
    let returned = list.len().min(room(pages));
    let mut draft = Draft::blank(pages)
        .number(list.len() as u32)
        .returned(returned as u32)
        .busy(rng.next() as u32)
        .limit(rng.next() as u16)
        .removed(rng.next() as u16);
    for (k, row) in list.values().take(returned).enumerate() {
        draft = draft.row(k, row);
    }
    if rng.once_in(20) {
        draft = change(rng, draft, pages, returned);
    }
    if rng.once_in(40) {
        draft = draft.length(rng.place(512 * pages + 600));
    }
    draft.bytes()
}
