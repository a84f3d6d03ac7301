//! Scripts: "A walk over small pages" (request 2026-04).

use super::docks_size::example;
use super::draft::{Case, Draft};
use super::script_text::{other, row_of, storage, table_a, Text, ALL};
use crate::rules::layout::{descriptor, IDENTIFIER, NUMBER};
use crate::rules::table::Element;

pub fn cases() -> Vec<Case> {
    vec![
        examples(),
        forty(),
        mixed_counts(),
        starts_in_gaps(),
        past_the_end(),
        filter_and_type(),
        full_pages(),
        last_element_ffffffff(),
        in_removal(),
        lying_pages(),
        refused(),
        words(),
    ]
}

/// Device A in a page of one, and document 01's "16 matching elements, one page".
fn examples() -> Case {
    let mut text = Text::with_a();
    text.walk(0, &[1], 0);
    text.make(&row_of(16), 0);
    text.walk(0, &[1], 0);
    text.named("walk-example")
}

/// Four boards of ten elements by pages of one.
fn forty() -> Case {
    let mut text = Text::new();
    let elements: Vec<Element> = (0..4)
        .flat_map(|board| (1..=10).map(move |k| board << 16 | k))
        .map(|identifier| storage(identifier, 0x20, 100))
        .collect();
    text.make(&elements, 0);
    text.walk(0, &[1], 0);
    text.named("walk-forty")
}

/// "with any mix of page counts from 1".
fn mixed_counts() -> Case {
    let mut text = Text::new();
    text.make(&row_of(128), 0);
    text.walk(0, &[2, 1, 3], 0);
    text.make(&spaced(33), 0);
    text.walk(0, &[1, 2], 0);
    text.walk(0, &[2, 1], 0);
    text.named("walk-mixed-counts")
}

/// `number` storage elements, identifiers 10h apart.
fn spaced(number: u32) -> Vec<Element> {
    (1..=number).map(|k| storage(0x10 * k, 0, 100)).collect()
}

/// First starts on an element and beside it; later ones are in gaps.
fn starts_in_gaps() -> Case {
    let mut text = Text::new();
    text.make(&spaced(17), 0);
    for start in [0xF, 0x10, 0x11, 0x20, 0x21] {
        text.walk(0, &[1], start);
    }
    text.named("walk-starts-in-gaps")
}

/// A first start above the last identifier; its bits above 47 do not count.
fn past_the_end() -> Case {
    let mut text = Text::new();
    text.make(&row_of(16), 0);
    for start in [
        0x10,
        0x11,
        0x8000_0000,
        0xFFFF_FFFE,
        0xFFFF_FFFF,
        0x1_0000_0000_0000,
        0x1_0000_0000_0002,
        0xFFFF_0000_0000_0010,
        0xFFFF_0000_FFFF_FFFF,
    ] {
        text.walk(0, &[1], start);
    }
    text.named("walk-past-the-end")
}

/// "each matching element": some are passed over, between two pages too.
fn filter_and_type() -> Case {
    let mut text = Text::new();
    let elements: Vec<Element> = (1..=48)
        .map(|k| Element {
            health: if k % 2 == 0 { 0x70 } else { 0x10 },
            ..match k % 3 {
                0 => other(k, 0x02),
                _ => storage(k, 0, 100),
            }
        })
        .collect();
    text.make(&elements, 0);
    for feature in [0x0000, 0x0100, 0x4000, 0x4100] {
        text.walk(feature, &[1], 0);
    }
    text.named("walk-filter-and-type")
}

/// A list that fills its last page, and one of an element more.
fn full_pages() -> Case {
    let mut text = Text::new();
    for (number, count) in [(15, 1), (16, 1), (30, 1), (31, 2), (32, 2)] {
        text.make(&row_of(number), 0);
        text.walk(0, &[count], 0);
    }
    text.named("walk-full-page")
}

/// FFFF_FFFFh is the device's last: of one, as the 15th of 15 and as the 16th.
fn last_element_ffffffff() -> Case {
    let mut text = Text::new();
    for number in [1, 15, 16] {
        let first = u32::MAX - (number - 1);
        let elements: Vec<Element> = (first..=u32::MAX).map(|id| storage(id, 0, 100)).collect();
        text.make(&elements, 0);
        text.walk(0, &[1], 0);
    }
    for number in [14, 15] {
        let mut elements = row_of(number);
        elements.push(storage(u32::MAX, 0, 100));
        text.make(&elements, 0);
        text.walk(0, &[1], 0);
    }
    text.named("walk-last-element-ffffffff")
}

/// Walks during a removal, and requests between which the device changes.
fn in_removal() -> Case {
    let mut text = Text::new();
    let slow: Vec<Element> = (1..=17).map(|k| storage(k, 0x70, 100)).collect();
    text.make(&slow, 0);
    text.remove(0x10, 0);
    text.walk(0x4000, &[1], 0);
    text.ask((0x4000, 1, 0));
    // The removal goes on, and elements on both sides of the next start are graded.
    text.steps(3);
    text.lines(&["grade 1 10", "grade 11 10"]);
    text.ask((0x4000, 1, 0x10));
    text.line("grade 11 cf");
    text.steps(2);
    text.walk(0x4000, &[1], 0);
    text.named("walk-in-removal")
}

/// N above returned, though nothing follows; the last identifier up to FFFF_FFFFh.
fn lying_pages() -> Case {
    let mut text = Text::new();
    text.make(&row_of(15), 0);
    text.ask((0, 1, 0));
    // N is 0001_000Fh: its lower half is as returned.
    text.poke(NUMBER + 2, 1);
    text.next(0, 1, 0);
    text.poke(NUMBER + 2, 0);
    text.poke(NUMBER, 16);
    text.next(0, 1, 0);
    let last = descriptor(14) + IDENTIFIER;
    for byte in 0..4 {
        text.poke(last + byte, 0xFF);
        text.next(0, 1, 0);
    }
    text.poke(last, 0xFE);
    for byte in 0..4 {
        text.poke(NUMBER + byte, 0xFF);
        text.next(0, 1, 0);
    }
    text.poke(last, 0xFF);
    text.next(0, 1, 0);
    for number in [31, 32] {
        text.page(&Draft::list(2, number).identifier(30, u32::MAX));
        text.next(0, 2, 0);
    }
    text.named("walk-lying-page")
}

/// A cut page that every filter and report type takes.
fn cut() -> Draft {
    let mut draft = Draft::list(1, 16);
    for k in 0..15 {
        draft = draft.element_type(k, 0x01).health(k, 0x70);
    }
    draft
}

/// The reader comes first, of a page that is cut and of one that is not.
fn refused() -> Case {
    let offences = [
        cut().returned(14),
        cut().returned(16),
        cut().number(14),
        cut().returned(0),
        cut().identifier(0, 0),
        cut().identifier(0, 0xFF),
        cut().identifier(14, 0x1D0),
        cut().flags(14, 0x01),
        cut().element_type(14, 0x02),
        cut().health(14, 0x64),
        cut().identifier(14, u32::MAX).flags(0, 0x01),
        cut().number(15).health(3, 0xD0),
        cut().number(14).returned(14),
        cut().number(0).returned(0),
    ];
    let mut text = Text::new();
    text.next(0, 1, 0);
    text.next(0, 0, 0);
    let mut text = text.read_each(&cut(), &offences, |text| text.next(0x4100, 1, 0x100));
    other_requests(&mut text);
    other_bytes(&mut text);
    text.named("walk-refused")
}

/// The same page as the answer to another request; bits that do not count make none.
fn other_requests(text: &mut Text) {
    for (feature, count, lba) in [
        (0x8000, 1, 0),
        (0xC000, 1, 0),
        (0x0200, 1, 0),
        (0x0F00, 1, 0),
        (0x0000, 0, 0),
        (0x0000, 2, 0),
        (0x0000, 0xFFFF, 0),
        (0x0000, 1, 0x101),
        (0x0000, 1, 0xFFFF_FFFF),
        (0x0000, 1, 0xFFFF_0000_0000_0000),
    ] {
        text.next(feature, count, lba);
    }
}

/// A page cut and lengthened, padding, and SCSI data in its place.
fn other_bytes(text: &mut Text) {
    for length in ["1ff", "200", "201", "400"] {
        text.line(&format!("length {}", length));
        text.next(0, 1, 0);
        text.next(0, 2, 0);
    }
    text.page(&Draft::list(1, 3).byte(511, 1));
    text.next(0, 1, 0);
    text.make(&row_of(16), 0);
    for allocation in [0x200, 0x220] {
        text.scsi(ALL, allocation, 0x220);
        text.next(0, 1, 0);
    }
    text.page(&example());
    text.next(0, 0, 0);
    text.next(0, 1, 0);
}

/// "exactly its words", numbers that fit their field, and no device.
fn words() -> Case {
    let mut text = Text::new();
    text.lines(&["next 0 1 0", "length 200", "next 0 1 0", "next"]);
    text.make(&table_a(), 0x81);
    text.line("next 0 1 0");
    text.make(&row_of(16), 0);
    text.command(0x12, 0, 1, 0, 0x200);
    text.lines(&["next 0", "next 0 1", "next 0 1 0", "next 0 1 0 0"]);
    text.lines(&["next 0 1 0 200", "next 0 1 0 #", "  next   0 1   0  "]);
    text.lines(&["NEXT 0 1 0", "Next 0 1 0", "nexts 0 1 0", "ext 0 1 0"]);
    text.lines(&["next 0x0 1 0", "next 0 1 g", "next unlocked 0 1 0"]);
    text.lines(&["ask 10", "end", "walk 0 1 0"]);
    let fields: [(&str, &[&str]); 3] = [
        ("next ? 1 0", &["0100", "FFff", "10000", "100000000"]),
        ("next 0 ? 0", &["0001", "ffff", "10000", "10001"]),
        (
            "next 0 1 ?",
            &[
                "ffff000000000001",
                "FFFF0000FFFFFFFF",
                "FFFFFFFFFFFFFFFF",
                "10000000000000000",
                "00000000000000001",
            ],
        ),
    ];
    for (call, values) in fields {
        for value in values {
            text.line(&call.replace('?', value));
        }
    }
    // None of these has changed the page.
    text.read(0, 1, 0);
    text.named("walk-words")
}
