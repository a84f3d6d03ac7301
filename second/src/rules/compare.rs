//! Request 2026-01, "Compare two pages": "Compare two that the reader accepted
//! for the same request, and list by ascending identifier what is only in the
//! older, only in the newer, or in both with a different type, health, flag or
//! capacity."

use std::collections::{BTreeMap, BTreeSet};

use super::layout::Descriptor;
use super::listing::{descriptor_text, values_text, MOST};
use super::reader::{read, Reading};
use super::request::Registers;

/// The text, and the program's exit status: 0 no difference, 1 a difference,
/// 2 refused.
pub struct Comparison {
    pub text: String,
    pub status: i32,
}

pub fn compare(older: &[u8], newer: &[u8]) -> Comparison {
    match judge(older, newer) {
        Ok((older, newer)) => comparison(&older, &newer),
        Err(turn) => Comparison {
            text: format!("refused 9 {}\n", turn),
            status: 2,
        },
    }
}

/// "Refusals: 9 with the page's turn, older first." The same request for both
/// is that of the listing, with as many pages as the older has.
fn judge(older: &[u8], newer: &[u8]) -> Result<(Reading, Reading), &'static str> {
    let pages = older.len() / 512;
    let older = accept(older, pages).ok_or("older")?;
    let newer = accept(newer, pages).ok_or("newer")?;
    Ok((older, newer))
}

/// A page that the reader accepts, of at most 65,536 bytes.
fn accept(page: &[u8], pages: usize) -> Option<Reading> {
    if page.len() > MOST {
        return None;
    }
    read(page, &Registers::new(0, pages as u16, 0)).ok()
}

fn comparison(older: &Reading, newer: &Reading) -> Comparison {
    let bound = bound_of(older, newer);
    let mut text = differences(older, newer, bound);
    let status = i32::from(!text.is_empty());
    // "and the answer says so"
    if let Some(bound) = bound {
        text += &format!("compared up to {:08X}\n", bound);
    }
    Comparison { text, status }
}

/// "If a page was cut short .., only identifiers up to the smallest last one of
/// the cut pages are compared".
fn bound_of(older: &Reading, newer: &Reading) -> Option<u32> {
    [older, newer].into_iter().filter_map(last_if_cut).min()
}

/// "cut short (N above returned)".
fn last_if_cut(reading: &Reading) -> Option<u32> {
    if reading.header.number <= reading.header.returned {
        return None;
    }
    reading.descriptors.last().map(|last| last.identifier)
}

/// "Each difference appears once."
fn differences(older: &Reading, newer: &Reading, bound: Option<u32>) -> String {
    let older = by_identifier(older, bound);
    let newer = by_identifier(newer, bound);
    let identifiers: BTreeSet<u32> = older.keys().chain(newer.keys()).copied().collect();
    identifiers
        .iter()
        .map(|identifier| line(older.get(identifier), newer.get(identifier)))
        .collect()
}

/// The descriptors that are compared.
fn by_identifier(reading: &Reading, bound: Option<u32>) -> BTreeMap<u32, Descriptor> {
    reading
        .descriptors
        .iter()
        .filter(|one| bound.map_or(true, |bound| one.identifier <= bound))
        .map(|one| (one.identifier, *one))
        .collect()
}

/// What is said of one identifier: nothing, if there is no difference.
fn line(older: Option<&Descriptor>, newer: Option<&Descriptor>) -> String {
    match (older, newer) {
        (Some(older), None) => format!("- {}\n", descriptor_text(older)),
        (None, Some(newer)) => format!("+ {}\n", descriptor_text(newer)),
        (Some(older), Some(newer)) if changed(older, newer) => {
            format!("~ {} <- {}\n", descriptor_text(newer), values_text(older))
        }
        _ => String::new(),
    }
}

/// "in both with a different type, health, flag or capacity".
fn changed(older: &Descriptor, newer: &Descriptor) -> bool {
    older.element_type != newer.element_type
        || older.health != newer.health
        || older.restoration != newer.restoration
        || older.capacity != newer.capacity
}

#[cfg(test)]
mod tests {
    use super::*;
    use crate::cases::draft::Draft;

    /// One page with storage elements of health 20h and 500 blocks.
    fn page(identifiers: &[u32]) -> Draft {
        let mut draft = Draft::list(1, identifiers.len() as u32);
        for (k, &identifier) in identifiers.iter().enumerate() {
            draft = draft
                .identifier(k, identifier)
                .element_type(k, 0x01)
                .health(k, 0x20)
                .capacity(k, 500);
        }
        draft
    }

    /// A page cut short at its fifteenth element, identifiers 10h apart.
    fn cut() -> Draft {
        let identifiers: Vec<u32> = (1..=15).map(|k| 0x10 * k).collect();
        page(&identifiers).number(16)
    }

    fn says(older: &Draft, newer: &Draft, text: &str, status: i32) {
        let comparison = compare(&older.clone().bytes(), &newer.clone().bytes());
        assert_eq!(comparison.text, text);
        assert_eq!(comparison.status, status);
    }

    #[test]
    fn each_kind_of_line() {
        let older = page(&[0x1, 0x3, 0x0001_0003]);
        let newer = page(&[0x3, 0x0001_0003, 0x0002_0000])
            .health(1, 0xFF)
            .capacity(1, u64::MAX);
        let text = "- 00000001 01 20 500\n\
                    ~ 00010003 01 FF - <- 01 20 500\n\
                    + 00020000 01 20 500\n";
        says(&older, &newer, text, 1);
        let text = "+ 00000001 01 20 500\n\
                    ~ 00010003 01 20 500 <- 01 FF -\n\
                    - 00020000 01 20 500\n";
        says(&newer, &older, text, 1);
    }

    #[test]
    fn one_field_is_enough() {
        let older = page(&[0x3]);
        let text = "~ 00000003 02 20 500 <- 01 20 500\n";
        says(&older, &older.clone().element_type(0, 0x02), text, 1);
        let text = "~ 00000003 01 21 500 <- 01 20 500\n";
        says(&older, &older.clone().health(0, 0x21), text, 1);
        let text = "~ 00000003 01 20 501 <- 01 20 500\n";
        says(&older, &older.clone().capacity(0, 501), text, 1);
        let removed = older.health(0, 0xFF);
        let text = "~ 00000003 01 FF 500 <- 01 FF 500\n";
        says(&removed, &removed.clone().flags(0, 0x01), text, 1);
    }

    #[test]
    fn headers_and_reserved_bytes_are_not_compared() {
        let older = page(&[0x1, 0x3]);
        let newer = older.clone().busy(3).limit(2).removed(1).byte(16, 0xA5);
        says(&older, &newer, "", 0);
        says(&older, &older.clone().flags(0, 0xFE).byte(32, 0xA5), "", 0);
    }

    #[test]
    fn bound_is_inclusive() {
        let above = page(&[0x10, 0xF1]);
        let rest: String = (2..=15)
            .map(|k| format!("- {:08X} 01 20 500\n", 0x10 * k))
            .collect();
        let text = format!("{}compared up to 000000F0\n", rest);
        says(&cut(), &above, &text, 1);
        let text = "~ 000000F0 01 20 7 <- 01 20 500\ncompared up to 000000F0\n";
        says(&cut(), &cut().capacity(14, 7), text, 1);
        says(&cut(), &cut(), "compared up to 000000F0\n", 0);
    }

    #[test]
    fn bound_is_the_smallest_of_the_cut_pages() {
        let lower = cut().identifier(14, 0xE8);
        let text = "+ 000000E8 01 20 500\ncompared up to 000000E8\n";
        says(&cut(), &lower, text, 1);
        let text = "- 000000E8 01 20 500\n+ 000000F0 01 20 500\ncompared up to 000000F0\n";
        says(&lower.number(15), &cut(), text, 1);
    }

    #[test]
    fn refusals_take_turns() {
        let good = page(&[0x3]);
        let bad = page(&[0]);
        let long = Draft::list(129, 1);
        says(&bad, &good, "refused 9 older\n", 2);
        says(&good, &bad, "refused 9 newer\n", 2);
        says(&bad, &bad, "refused 9 older\n", 2);
        says(&good, &Draft::list(2, 1), "refused 9 newer\n", 2);
        says(&Draft::list(2, 1), &good, "refused 9 newer\n", 2);
        says(&long, &long, "refused 9 older\n", 2);
    }
}
