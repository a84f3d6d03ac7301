//! Scripts: "Reserved bits are refused" (request 2026-05).

use super::draft::{Case, Draft};
use super::script_text::{command_line, row_of, storage, Text};
use super::walks::Asked;
use crate::rules::table::Element;

const STATUS: u8 = 0x12;

/// "A laptop sent a start of 1_0000_0003h".
const LAPTOP: u64 = 0x1_0000_0003;

pub fn cases() -> Vec<Case> {
    vec![
        laptop(),
        each_bit(),
        buffers(),
        check_order(),
        beside(),
        in_removal(),
        kept_page(),
        read(),
        next(),
        to_scsi(),
        walks(),
        other_commands(),
        identifiers(),
        addresses(),
        scsi(),
    ]
}

/// "FEATURE 13:12 or 7:0 not zero, or LBA 47:32 not zero": each bit by itself, then
/// all of FEATURE, of LBA and of both.
fn reserved_bits() -> Vec<(u16, u64)> {
    let features = (0..8).chain(12..14).map(|bit| (1 << bit, 0));
    let starts = (32..48).map(|bit| (0, 1 << bit));
    let mut bits: Vec<(u16, u64)> = features.chain(starts).collect();
    bits.extend([(0x30FF, 0), (0, 0xFFFF << 32), (0x30FF, 0xFFFF << 32)]);
    bits
}

/// The first and the last bit of each field, by itself.
const BORDERS: [(u16, u64); 6] = [
    (0x0001, 0),
    (0x0080, 0),
    (0x1000, 0),
    (0x2000, 0),
    (0x0000, 1 << 32),
    (0x0000, 1 << 47),
];

/// The laptop's request, as it was and as it was meant; then the page that "showed an
/// empty store as healthy", for it and for G2.
fn laptop() -> Case {
    let mut text = Text::with_a();
    text.command(STATUS, 0, 1, LAPTOP, 0x200);
    text.command(STATUS, 0, 1, 3, 0x200);
    text.read(0, 1, LAPTOP);
    text.read(0, 1, 3);
    text.page(&Draft::blank(1).limit(2));
    for (feature, lba) in [(0x0000, LAPTOP), (0x4100, 0x1_0000_0000), (0x0000, 3)] {
        text.command(STATUS, feature, 1, lba, 0x1FF);
        text.read(feature, 1, lba);
        text.next(feature, 1, lba);
        text.toscsi(feature, 1, lba, 0x20);
    }
    text.named("reserved-example")
}

/// Each under every state, beside a start of 0 and beside the highest one.
fn each_bit() -> Case {
    let mut text = Text::with_a();
    for (feature, lba) in reserved_bits() {
        for state in ["locked", "unlocked", "frozen"] {
            text.line(&command_line(state, STATUS, feature, 1, lba, 0x200));
        }
        text.command(STATUS, 0x4100 | feature, 1, lba | 0xFFFF_FFFF, 0x400);
    }
    text.cells();
    text.named("reserved-each-bit")
}

/// "4, after the page count check and before the buffer check".
fn buffers() -> Case {
    let mut text = Text::with_a();
    let mut bits = reserved_bits();
    bits.push((0, 0));
    for (feature, lba) in bits {
        for (count, length) in [(1, 0), (1, 0x1FF), (2, 0x200), (129, 0x1_0000), (0, 0)] {
            text.command(STATUS, feature, count, lba, length);
        }
    }
    text.named("reserved-buffers")
}

/// Beside filters, report types and a page count that get 4 by themselves.
fn check_order() -> Case {
    let mut text = Text::with_a();
    for asked in [0x8000, 0xC000, 0x0200, 0x0F00, 0x8200, 0x4100] {
        for (feature, lba) in BORDERS {
            for (count, length) in [(1, 0x200), (1, 0x1FF), (0, 0x200)] {
                text.command(STATUS, asked | feature, count, lba, length);
            }
        }
    }
    text.named("reserved-check-order")
}

/// What is let through, of LBA bits above 47 whatever they are, and the same with a
/// reserved bit.
fn beside() -> Case {
    let mut text = Text::with_a();
    for feature in [0x0000, 0x0100, 0x4000, 0x4100] {
        text.command(STATUS, feature, 1, 4, 0x200);
    }
    for bit in 48..64 {
        for lba in [0, 1 << 32, 1 << 47] {
            text.command(STATUS, 0, 1, 1 << bit | lba, 0x1FF);
        }
    }
    for lba in [
        0xFFFF_FFFF,
        0x1_0000_0000,
        0xFFFF_FFFF_FFFF,
        0x1_0000_0000_0000,
        0xFFFF_0000_FFFF_FFFF,
        0xFFFF_0001_0000_0000,
        u64::MAX,
    ] {
        text.command(STATUS, 0x4100, 1, lba, 0x200);
    }
    text.named("reserved-beside")
}

/// At rest, in each step of a removal and of winding up, and with the failed mark.
fn in_removal() -> Case {
    let mut text = Text::with_a();
    let ask = |text: &mut Text| {
        let states = ["locked", "unlocked", "frozen"].iter().cycle();
        for (state, (feature, lba)) in states.zip(BORDERS) {
            text.line(&command_line(state, STATUS, feature, 1, lba, 0x200));
        }
        text.command(STATUS, 0, 1, 0, 0x1FF);
    };
    ask(&mut text);
    text.remove(0x0001_0003, 0);
    for event in [
        "step", "step", "step", "step", "error", "step", "step", "cut", "step", "step", "step",
        "step",
    ] {
        ask(&mut text);
        text.line(event);
    }
    ask(&mut text);
    text.cells();
    text.named("reserved-in-removal")
}

/// A refusal leaves the kept page as it was.
fn kept_page() -> Case {
    let mut text = Text::with_a();
    text.command(STATUS, 0x4100, 1, 0, 0x200);
    for (feature, lba) in BORDERS {
        let feature = 0x4100 | feature;
        text.command(STATUS, feature, 1, lba, 0x200);
        text.read(feature, 1, lba);
        text.next(feature, 1, lba);
        text.toscsi(feature, 1, lba, 0x40);
        text.read(0x4100, 1, 0);
    }
    text.toscsi(0x4100, 1, 0, 0x40);
    text.named("reserved-kept-page")
}

fn read() -> Case {
    each_page("reserved-read", |text, (feature, count, lba)| {
        text.read(feature, count, lba);
    })
}

fn next() -> Case {
    each_page("reserved-next", |text, (feature, count, lba)| {
        text.next(feature, count, lba);
    })
}

fn to_scsi() -> Case {
    each_page("reserved-toscsi", |text, (feature, count, lba)| {
        text.toscsi(feature, count, lba, 0x220);
    })
}

/// Pages that the reader takes, whole and cut, and pages with an offence.
fn pages() -> Vec<Draft> {
    let list = Draft::list(1, 3);
    vec![
        Draft::blank(1),
        list.clone(),
        Draft::list(1, 16),
        list.clone().returned(2),
        list.clone().identifier(0, 0),
        list.clone().flags(2, 1),
        list.clone().byte(511, 1),
        list.clone().length(0x1FF),
        Draft::list(2, 3),
    ]
}

/// "the reader treats such a request as refused", whatever the page: 9 at 0. The last
/// request has ignored bits alone.
fn each_page(name: &str, call: fn(&mut Text, Asked)) -> Case {
    let mut text = Text::new();
    for page in pages() {
        text.page(&page);
        for (feature, lba) in reserved_bits() {
            call(&mut text, (feature, 1, lba));
        }
        call(&mut text, (0, 1, 0xFFFF_8000_0000_0000));
        call(&mut text, (0, 1, 0xFFFF_0000_0000_0000));
    }
    text.named(name)
}

/// A walk that begins with such a request, or would go on with one.
fn walks() -> Case {
    let mut text = Text::new();
    text.make(&row_of(16), 0);
    text.ask((0, 1, 1 << 48));
    text.walk(0, &[1], LAPTOP);
    text.walk(0x2000, &[1], 0);
    text.next(0x0001, 1, 0);
    text.next(0, 1, 1 << 47);
    text.ask((0, 1, 0x1_0000_0010));
    text.ask((0, 1, 0x10));
    text.named("reserved-walk")
}

/// The other codes, at rest and during a removal, are answered as ever.
fn other_commands() -> Case {
    let mut text = Text::with_a();
    other_codes(&mut text);
    text.remove(0x3, 0);
    other_codes(&mut text);
    text.named("reserved-other-commands")
}

/// Those that are named, some that are not, and forms that are open with these bits.
fn other_codes(text: &mut Text) {
    for code in [
        0x24, 0x25, 0x34, 0x35, 0x42, 0xEC, 0xE1, 0x2F, 0x47, 0x0B, 0xF2, 0xEF, 0xB0, 0x11, 0x13,
    ] {
        for (feature, lba) in BORDERS {
            text.command(code, feature, 1, lba, 0);
        }
    }
    for (code, feature, low) in [
        (0xE1, 0x3044, 0x055_4E4C),
        (0x2F, 0x30FF, 0x30),
        (0x47, 0x30FF, 0x04),
        (0xB0, 0x30D5, 0xE0),
        (0xEF, 0x3007, 0x00),
    ] {
        text.command(code, feature, 1, 0xFFFF << 32 | low, 0);
    }
}

/// Of 7Ch FEATURE is a part of the identifier; the elements are removed but one.
fn identifiers() -> Case {
    let mut text = Text::new();
    let bits = (0..8).chain(12..14);
    let elements: Vec<Element> = bits
        .map(|bit| storage(3 | 1 << (16 + bit), 0, 10))
        .collect();
    text.make(&elements, 0);
    for one in &elements[1..] {
        text.removal(one.identifier, 0);
    }
    text.cells();
    text.command(STATUS, 0, 1, 0x2000_0003, 0x200);
    text.named("reserved-identifiers")
}

/// Of media access and of 7Ch LBA is an address, all of its 48 bits.
fn addresses() -> Case {
    let mut text = Text::new();
    let elements = [storage(1, 0, 10), storage(2, 0, (1 << 48) - 10)];
    for bit in 32..48 {
        text.make(&elements, 0);
        text.command(0x25, 0, 1, 1 << bit, 0);
        text.remove(1, 1 << bit);
    }
    text.steps(5);
    for count in [1, 2] {
        text.command(0x25, 0x30FF, count, 1 << 47, 0);
    }
    text.cells();
    text.named("reserved-addresses")
}

/// A SCSI request has no such bits: its start is a number of 32 bits.
fn scsi() -> Case {
    let mut text = Text::with_a();
    text.command(STATUS, 0, 1, LAPTOP, 0x200);
    text.lines(&["scsi 0 0 100000003 20 20", "scsi 0 0 ffffffff 20 20"]);
    text.scsi((0, 0, 3), 0x1_0000, 0x80);
    text.scsiread((0, 0, 3));
    text.lines(&["scsiread 0 0 100000003", "toata 0 0 100000003 1 200"]);
    text.toata((0, 0, 3), 1, 0x200);
    // The page as the answer to ATA's request.
    for lba in [LAPTOP, 3 | 1 << 48, 3] {
        text.next(0, 1, lba);
        text.toscsi(0, 1, lba, 0x7F);
    }
    text.named("reserved-scsi")
}
