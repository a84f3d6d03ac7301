//! SCSI data: the example, cuts at every length, and lists of any length.

use super::draft::{Case, Draft};
use super::script_text::table_a;
use crate::rules::layout::descriptor;

/// This data, in order.
pub fn cases() -> Vec<Case> {
    let mut cases = vec![example().named("example"), device_a().named("device-a")];
    cases.extend(cuts());
    cases.extend(empty_lists());
    cases.extend(past_the_list());
    cases.extend(long_lists());
    cases.extend(longest());
    cases
}

/// What device A writes for filter 1 and report type 1.
pub fn example() -> Draft {
    Draft::dock(1)
        .limit(2)
        .identifier(0, 0x0001_0003)
        .health(0, 0x70)
        .capacity(0, 500)
}

/// What device A writes for filter 0 and report type 0.
fn device_a() -> Draft {
    let mut draft = Draft::dock(4).limit(2);
    for (k, one) in table_a().iter().enumerate() {
        draft = draft
            .identifier(k, one.identifier)
            .element_type(k, one.element_type)
            .health(k, one.health)
            .capacity(k, one.blocks);
    }
    draft
}

/// Three elements at every length: "length below 32", cut, torn and whole, and a
/// byte past the list.
fn cuts() -> Vec<Case> {
    (0..=descriptor(3) + 1)
        .map(|length| {
            let name = format!("length-{:03}", length);
            Draft::dock(3).length(length).named(&name)
        })
        .collect()
}

/// N = 0: the header is the whole.
fn empty_lists() -> Vec<Case> {
    let mut cases = Vec::new();
    for length in [31, 32, 33] {
        let name = format!("empty-{}", length);
        cases.push(Draft::dock(0).limit(7).length(length).named(&name));
    }
    cases
}

/// "nothing follows the last descriptor": data longer than 32 + 32N.
fn past_the_list() -> Vec<Case> {
    let mut cases = Vec::new();
    for (number, length) in [(1, 65), (1, 95), (1, 96), (1, 512)] {
        let name = format!("past-{}-{}", number, length);
        cases.push(Draft::dock(number).length(length).named(&name));
    }
    // What is past the list is not judged, whatever it holds.
    cases.push(Draft::dock(3).both(2).named("past-2-good"));
    cases.push(Draft::dock(3).both(0).named("past-0-good"));
    let bad = Draft::dock(3).both(2).identifier(2, 0).flags(2, 1);
    cases.push(bad.named("past-2-bad"));
    cases
}

/// N far above what is there: cut, or torn. In 32 bits 32 + 32N would be 0, or 32
/// or 64 (of N = 0800_0001h), and the data past the list; in 37 bits 0 of the last.
fn long_lists() -> Vec<Case> {
    let mut cases = Vec::new();
    for (number, length) in [
        (4, 128),
        (0x1_0000, 128),
        (0x8000_0000, 128),
        (0x03FF_FFFF, 64),
        (0x0400_0000, 64),
        (0x07FF_FFFF, 32),
        (0x07FF_FFFF, 33),
        (0x07FF_FFFF, 64),
        (0x0800_0000, 32),
        (0x0800_0000, 33),
        (0x0800_0000, 64),
        (0x0800_0001, 64),
        (0x0800_0001, 97),
        (0x0800_0001, 128),
        (0xF800_0000, 96),
        (0xFFFF_FFFE, 64),
        (0xFFFF_FFFF, 32),
        (0xFFFF_FFFF, 33),
        (0xFFFF_FFFF, 128),
    ] {
        let name = format!("number-{:x}-{}", number, length);
        cases.push(Draft::dock(3).both(number).length(length).named(&name));
    }
    cases
}

/// "input above 65,536 bytes is refused at 65536", before all else.
fn longest() -> Vec<Case> {
    let most = || Draft::dock(2047);
    vec![
        most().named("longest-whole"),
        most().both(2048).named("longest-cut"),
        most().length(65_535).named("longest-torn"),
        most().both(2046).named("longest-past"),
        most().identifier(2046, 0).named("longest-zero-last"),
        most().length(65_537).named("longest-and-a-byte"),
        most()
            .both(2048)
            .length(65_537)
            .named("longest-torn-and-a-byte"),
        Draft::dock(3).length(65_536).named("longest-of-three"),
        Case::new("longest-ones", vec![0xFF; 65_537]),
    ]
}
