//! Pages: every offence that the listing program's request can show.

use super::draft::{usual_identifier, Case, Draft};
use crate::rules::layout::descriptor;

/// These pages, in order.
pub fn cases() -> Vec<Case> {
    let mut cases = Vec::new();
    cases.extend(wrong_returned());
    cases.extend(wrong_descriptors());
    cases.extend(wrong_order());
    cases.extend(wrong_padding());
    cases.extend(two_offences());
    cases
}

/// "returned not the smaller of N and 16p - 1 (4)".
fn wrong_returned() -> Vec<Case> {
    let table: [(usize, u32, u32); 26] = [
        (1, 0, 1),
        (1, 0, 15),
        (1, 0, u32::MAX),
        (1, 1, 0),
        (1, 1, 2),
        (1, 1, 0x100_0000),
        (1, 1, 0x101),
        (1, 1, 0x1_0001),
        (1, 2, 1),
        (1, 2, 3),
        (1, 5, 7),
        (1, 7, 5),
        (1, 15, 14),
        (1, 15, 16),
        (1, 16, 16),
        (1, 16, 14),
        (1, 17, 17),
        (1, 17, 16),
        (1, u32::MAX, 0),
        (1, u32::MAX, u32::MAX),
        (2, 16, 15),
        (2, 31, 30),
        (2, 31, 32),
        (2, 32, 32),
        (9, 128, 127),
        (9, 144, 144),
    ];
    let mut cases = Vec::new();
    for (pages, number, returned) in table {
        let name = format!("returned-{}-of-{}-in-{}", returned, number, pages);
        cases.push(Draft::list(pages, number).returned(returned).named(&name));
    }
    // N and returned exchanged, for a list cut by its page.
    cases.push(
        Draft::list(1, 16)
            .number(15)
            .returned(16)
            .named("returned-exchanged-in-1"),
    );
    cases.push(
        Draft::list(2, 40)
            .number(31)
            .returned(40)
            .named("returned-exchanged-in-2"),
    );
    // The returned number put in N is no offence: such a page is sound.
    cases.push(Draft::list(1, 16).number(15).named("returned-in-number"));
    cases
}

/// A list of which a descriptor is going to offend: (pages, number).
const LISTS: [(usize, u32); 6] = [(1, 1), (1, 2), (1, 15), (2, 16), (2, 31), (9, 143)];

/// The first, a middle and the last descriptor, each once.
fn spots(number: u32) -> Vec<(&'static str, usize)> {
    let last = number as usize - 1;
    match last {
        0 => vec![("only", 0)],
        1 => vec![("first", 0), ("last", 1)],
        _ => vec![("first", 0), ("middle", (last + 1) / 2), ("last", last)],
    }
}

/// Each offence of one descriptor, at the first, a middle and the last one.
fn wrong_descriptors() -> Vec<Case> {
    let mut cases = Vec::new();
    for (pages, number) in LISTS {
        for (spot, k) in spots(number) {
            let good = Draft::list(pages, number);
            let before = usual_identifier(k) - 0x10;
            let ending = format!("{}-{}", number, spot);
            let mut add = |kind: &str, draft: Draft| {
                cases.push(draft.named(&format!("{}-{}", kind, ending)));
            };
            add("zero", good.clone().identifier(k, 0));
            if k > 0 {
                add("equal", good.clone().identifier(k, before));
                add("below", good.clone().identifier(k, before - 1));
            }
            add("restore", good.clone().flags(k, 0x01));
            add("restore-fe", good.flags(k, 0xFF).health(k, 0xFE));
        }
    }
    cases.push(Draft::list(128, 2047).flags(2046, 1).named("restore-2047"));
    cases.push(
        Draft::list(128, 2047)
            .identifier(2046, usual_identifier(2045))
            .named("equal-2047"),
    );
    cases
}

/// Identifiers that offend, or do not, only if all four bytes are compared.
fn wrong_order() -> Vec<Case> {
    let two = |a: u32, b: u32| Draft::list(1, 2).identifier(0, a).identifier(1, b);
    let pairs: [(u32, u32); 14] = [
        (0xFF, 0x100),
        (0x100, 0xFF),
        (0xFFFF, 0x1_0000),
        (0x1_0000, 0xFFFF),
        (0x1_0003, 0x2_0000),
        (0x2_0000, 0x1_0003),
        (0x3, 0x1_0003),
        (0x1_0003, 0x3),
        (0x7FFF_FFFF, 0x8000_0000),
        (0x8000_0000, 0x7FFF_FFFF),
        (0xFFFF_FFFE, 0xFFFF_FFFF),
        (0xFFFF_FFFF, 0xFFFF_FFFE),
        (0xFFFF_FFFF, 0xFFFF_FFFF),
        (0xFFFF_FFFF, 1),
    ];
    let mut cases = Vec::new();
    for (a, b) in pairs {
        cases.push(two(a, b).named(&format!("order-{:x}-{:x}", a, b)));
    }
    // Too large an identifier offends at the next descriptor, if there is one.
    let list = Draft::list(1, 15);
    cases.push(
        list.clone()
            .identifier(7, u32::MAX)
            .named("order-peak-middle"),
    );
    cases.push(list.identifier(14, u32::MAX).named("order-peak-last"));
    cases
}

/// "then the first non-zero padding byte", the very last one among them.
fn wrong_padding() -> Vec<Case> {
    let mut cases = Vec::new();
    for (pages, number) in [(1, 0), (1, 1), (1, 2), (1, 14), (2, 15), (2, 30), (9, 128)] {
        let first = descriptor(number as usize);
        let end = 512 * pages;
        let ending = format!("{}-in-{}", number, pages);
        let mut add = |kind: &str, place: usize, value: u8| {
            let name = format!("padding-{}-{}", kind, ending);
            cases.push(Draft::list(pages, number).byte(place, value).named(&name));
        };
        add("first", first, 0x01);
        add("middle", (first + end) / 2, 0x80);
        add("last", end - 1, 0xFF);
    }
    let one = Draft::list(1, 1);
    cases.push(
        one.clone()
            .byte(100, 1)
            .byte(64, 1)
            .named("padding-two-64-100"),
    );
    cases.push(one.byte(511, 1).byte(510, 2).named("padding-two-510-511"));
    for place in [511, 512] {
        let name = format!("padding-{}-in-2", place);
        cases.push(Draft::list(2, 3).byte(place, 0x20).named(&name));
    }
    let many = Draft::list(128, 128);
    cases.push(many.byte(65_535, 1).named("padding-last-128-in-128"));
    cases
}

/// Which of two offences is reported, in both orders.
fn two_offences() -> Vec<Case> {
    let list = || Draft::list(1, 14);
    let padding = descriptor(14);
    vec![
        list()
            .returned(13)
            .identifier(0, 0)
            .named("two-returned-zero"),
        list().returned(15).identifier(3, 0).named("two-above-zero"),
        list()
            .returned(15)
            .byte(padding, 1)
            .named("two-returned-padding"),
        list()
            .returned(13)
            .flags(2, 1)
            .named("two-returned-restore"),
        list()
            .identifier(5, 0)
            .flags(5, 1)
            .named("two-zero-restore-of-one"),
        list()
            .identifier(5, usual_identifier(4))
            .flags(5, 1)
            .named("two-equal-restore-of-one"),
        list()
            .identifier(5, 0)
            .flags(6, 1)
            .named("two-zero-5-restore-6"),
        list()
            .flags(5, 1)
            .identifier(6, 0)
            .named("two-restore-5-zero-6"),
        list()
            .flags(2, 1)
            .flags(9, 1)
            .named("two-restore-2-restore-9"),
        list()
            .identifier(9, 0)
            .identifier(2, 0)
            .named("two-zero-2-zero-9"),
        list()
            .flags(0, 1)
            .identifier(13, 0)
            .named("two-restore-first-zero-last"),
        list()
            .identifier(0, 0)
            .flags(13, 1)
            .named("two-zero-first-restore-last"),
        list()
            .identifier(13, 0)
            .byte(padding, 9)
            .named("two-zero-padding"),
        list()
            .flags(13, 1)
            .byte(padding, 9)
            .named("two-restore-padding"),
        list()
            .flags(0, 1)
            .byte(511, 9)
            .named("two-restore-last-byte"),
        list().returned(13).length(511).named("two-length-returned"),
        list()
            .returned(13)
            .length(1025)
            .named("two-length-returned-long"),
        list().identifier(0, 0).length(513).named("two-length-zero"),
        list().flags(0, 1).length(1000).named("two-length-restore"),
        list().byte(511, 1).length(700).named("two-length-padding"),
        // A page that is good for one page only, with more pages behind it.
        Draft::list(1, 16)
            .length(1024)
            .named("two-pages-returned-for-one"),
        Draft::list(1, 16)
            .number(15)
            .length(1024)
            .named("two-pages-list-of-one"),
    ]
}
