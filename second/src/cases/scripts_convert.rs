//! Scripts: "turn one kind into the other" (request 2026-03).

use super::draft::{Case, Draft};
use super::script_text::{row_of, table_a, Text, ALL};
use crate::rules::layout::descriptor;

pub fn cases() -> Vec<Case> {
    vec![
        to_scsi_pages(),
        to_scsi_refused(),
        to_ata_pages(),
        to_ata_cut(),
        to_ata_refused(),
        reserved(),
        there_and_back(),
    ]
}

/// Three descriptors that every filter and report type takes.
fn usual(list: Draft) -> Draft {
    list.health(0, 0x70)
        .health(1, 0xFF)
        .flags(1, 0x01)
        .health(2, 0x65)
        .capacity(2, 0x0102_0304_0506_0708)
        .busy(0x0A0B_0C0D)
        .limit(0x0102)
        .removed(0x0304)
}

/// Reserved bytes set, all of header and descriptors.
fn filled(mut draft: Draft) -> Draft {
    for place in 16..32 {
        draft = draft.byte(place, 0x11);
    }
    for k in 0..3 {
        for byte in (0..4).chain(8..13).chain(24..32) {
            draft = draft.byte(descriptor(k) + byte, 0xA5);
        }
    }
    draft.flags(0, 0x80).flags(1, 0xFF).flags(2, 0xFE)
}

/// Pages of one kind of request read as those of another.
fn to_scsi_pages() -> Case {
    let mut text = Text::with_a();
    for feature in [0x0000, 0x0100, 0x4000, 0x4100] {
        for start in [0, 4, 0xFFFF_FFFE] {
            text.command(0x12, feature, 1, start, 0x200);
            text.toscsi(0x4100, 1, start + 1, 0x1_0000);
            text.toscsi(feature, 2, start, 0x1_0000);
            text.toscsi(feature, 1, start, 0x1_0000);
        }
    }
    text.command(0x12, 0, 2, 0, 0x400);
    text.toscsi(0x8000, 2, 0, 0x1_0000);
    text.toscsi(0x0200, 2, 0, 0x1_0000);
    text.toscsi(0, 0, 0, 0x1_0000);
    text.toscsi(0, 2, 1 << 48, 0x1_0000);
    to_scsi_cut(&mut text);
    text.named("toscsi-pages")
}

/// "9 at 4 for a cut list": N above 16p - 1.
fn to_scsi_cut(text: &mut Text) {
    for (number, count) in [
        (15, 1),
        (16, 1),
        (16, 2),
        (31, 2),
        (32, 2),
        (128, 8),
        (128, 9),
    ] {
        text.make(&row_of(number), 0);
        text.command(0x12, 0, count, 0, 0x1_0000);
        text.toscsi(0, count, 0, 0x1_0000);
        text.scsiread(ALL);
    }
    text.page(&Draft::list(1, u32::MAX));
    text.toscsi(0, 1, 0, 0x1_0000);
    text.page(&Draft::list(1, 15));
    text.toscsi(0, 1, 0, 0x1_0000);
}

/// "the source reader's refusals", before those of the converter.
fn to_scsi_refused() -> Case {
    let mut text = Text::new();
    let good = usual(Draft::list(1, 3));
    text.page(&good);
    for changed in [
        good.clone().returned(2),
        good.clone().number(4),
        good.clone().identifier(1, 0),
        good.clone().identifier(2, 1),
        good.clone().flags(0, 1),
        good.clone().element_type(1, 2),
        good.clone().health(2, 0x64),
        good.clone().byte(128, 1),
        good.clone().byte(511, 1),
    ] {
        text.turn(&good, &changed);
        for length in [0x1_0000, 0x80, 0x7F, 0] {
            text.toscsi(0x4100, 1, 0x100, length);
        }
        text.read(0, 1, 0);
        text.turn(&changed, &good);
    }
    text.toscsi(0, 1, 0x101, 0);
    text.line("length 1ff");
    text.toscsi(0, 1, 0, 0x80);
    // A cut list with an offence: the reader comes first.
    let cut = Draft::list(1, 16);
    text.page(&cut.clone().flags(14, 1));
    text.toscsi(0, 1, 0, 0x1_0000);
    text.turn(&cut.clone().flags(14, 1), &cut);
    text.toscsi(0, 1, 0, 0);
    to_scsi_buffers(&mut text);
    text.named("toscsi-refused")
}

/// "7 last": the buffer one short, exact and longer.
fn to_scsi_buffers(text: &mut Text) {
    for number in [0, 1, 3, 15] {
        text.page(&Draft::list(1, number));
        let exact = descriptor(number as usize);
        for length in [0, 1, 31, exact - 1, exact] {
            text.toscsi(0, 1, 0, length);
            text.read(0, 1, 0);
        }
        text.page(&Draft::list(2, number));
        text.toscsi(0, 2, 0, exact + 1);
    }
}

/// "one above 16p - 1 for the pages asked", no page among them; N at the borders.
fn to_ata_pages() -> Case {
    let mut text = Text::new();
    for number in [1, 14, 15, 16, 31, 32, 127] {
        text.make(&row_of(number), 0);
        text.scsi(ALL, 0x1_0000, 0x1_0000);
        let enough = number as u16 / 16 + 1;
        // These keep the data: too few pages, or more than the buffer holds.
        for pages in [0, enough - 1, 129, 0x8000, 0xFFFF] {
            text.toata(ALL, pages, 0x1_0000);
        }
        text.toata(ALL, enough, 0x1_0000);
        text.read(0, enough, 0);
    }
    // An empty list, and one element, on any number of pages.
    for pages in [0, 1, 2, 3, 127, 128, 129, 0xFFFF] {
        text.page(&Draft::dock(0));
        text.toata(ALL, pages, 0x1_0000);
        text.page(&Draft::dock(1).limit(2));
        text.toata(ALL, pages, 0x1_0000);
    }
    text.named("toata-pages")
}

/// "9 at 4 for a cut list", torn or not, on however many pages.
fn to_ata_cut() -> Case {
    let mut text = Text::with_a();
    for allocation in [0, 31, 32, 33, 63, 64, 65, 96, 127, 128, 159, 160] {
        text.scsi(ALL, allocation, 160);
        for pages in [0, 128, 1] {
            text.toata(ALL, pages, 0x1_0000);
        }
    }
    for number in [4, 15, 16, 0x0800_0003, u32::MAX] {
        text.page(&Draft::dock(3).both(number));
        text.toata(ALL, 1, 0x200);
        text.toata(ALL, 0xFFFF, 0x200);
    }
    text.named("toata-cut")
}

/// "the source reader's refusals", before those of the converter.
fn to_ata_refused() -> Case {
    let mut text = Text::new();
    let good = usual(Draft::dock(3));
    text.page(&good);
    for changed in [
        good.clone().returned(2),
        good.clone().both(2),
        good.clone().identifier(1, 0),
        good.clone().flags(0, 1),
        good.clone().element_type(1, 2),
        good.clone().health(2, 0x64),
        good.clone().both(4).health(1, 0x64),
    ] {
        text.turn(&good, &changed);
        for (pages, length) in [(1, 0x200), (1, 0x1FF), (0, 0), (0, 0x200)] {
            text.toata((1, 1, 0x100), pages, length);
        }
        text.turn(&changed, &good);
    }
    for request in [
        (2, 0, 0),
        (0, 2, 0),
        (4, 0, 0),
        (0xFF, 0, 0),
        (0, 0xFF, 0),
        (0, 0, 0x101),
    ] {
        text.toata(request, 1, 0x200);
        text.toata(request, 0, 0);
    }
    // Longer than the list, and the list cut: of the data only one can be.
    text.line("length 81");
    text.toata(ALL, 1, 0x200);
    text.toata(ALL, 0, 0);
    text.line("length 80");
    text.toata((1, 1, 0x100), 1, 0x200);
    to_ata_buffers(&mut text);
    text.named("toata-refused")
}

/// "7 last": the buffer below 512p bytes.
fn to_ata_buffers(text: &mut Text) {
    for (number, pages) in [(0, 1), (3, 1), (15, 1), (15, 2), (16, 2), (3, 128)] {
        text.page(&Draft::dock(number));
        let exact = 512 * usize::from(pages);
        for length in [0, descriptor(number), exact - 1, exact] {
            text.toata(ALL, pages, length);
        }
        text.read(0, pages, 0);
    }
    // The list does not fit the pages, nor the pages the buffer: 9 before 7.
    text.page(&Draft::dock(16));
    for length in [0, 0x1FF, 0x200, 0x220] {
        text.toata(ALL, 1, length);
        text.toata(ALL, 0, length);
    }
    text.toata(ALL, 2, 0x401);
}

/// "Reserved bytes become zero", bits 7:1 of byte 13 among them.
fn reserved() -> Case {
    let mut text = Text::new();
    let page = filled(usual(Draft::list(1, 3)));
    text.page(&page);
    text.toscsi(0, 1, 0, 0x80);
    text.toata(ALL, 1, 0x200);
    text.read(0, 1, 0);
    let data = filled(usual(Draft::dock(3)));
    text.page(&data);
    text.toata(ALL, 1, 0x200);
    text.toscsi(0, 1, 0, 0x80);
    text.scsiread(ALL);
    // Each reserved byte alone, of the header and of a descriptor.
    let places = (16..32).chain((0..4).chain(8..13).chain(24..32).map(|byte| 64 + byte));
    for place in places {
        text.page(&Draft::dock(2).byte(place, 0xFF).length(96));
        text.toata(ALL, 1, 0x200);
        text.poke(place, 0xFF);
        text.toscsi(0, 1, 0, 0x60);
    }
    text.named("convert-reserved")
}

/// "Converting there and back yields the same elements and header numbers".
fn there_and_back() -> Case {
    let mut text = Text::new();
    text.page(&usual(Draft::dock(3)));
    text.scsiread(ALL);
    for pages in [1, 2, 128] {
        text.toata(ALL, pages, 0x1_0000);
        text.read(0, pages, 0);
        text.toscsi(0, pages, 0, 0x1_0000);
        text.scsiread(ALL);
    }
    text.page(&usual(Draft::list(2, 20)));
    for _ in 0..2 {
        text.toscsi(0, 2, 0, 0x1_0000);
        text.toata(ALL, 2, 0x1_0000);
    }
    // Under the request that it answers.
    text.page(&usual(Draft::list(1, 3)));
    for (feature, filter, report_type) in [(0x4100, 1, 1), (0x4000, 1, 0), (0x0100, 0, 1)] {
        text.toscsi(feature, 1, 0x100, 0x80);
        text.toata((filter, report_type, 0x100), 1, 0x200);
    }
    device_agrees(&mut text);
    text.named("convert-there-and-back")
}

/// The device's SCSI data is its page converted, at rest and during a removal.
fn device_agrees(text: &mut Text) {
    text.make(&table_a(), 2);
    let ask = |text: &mut Text| {
        for (feature, request) in [(0, ALL), (0x4100, (1, 1, 1)), (0x0100, (0, 1, 0x0001_0000))] {
            let start = u64::from(request.2);
            text.command(0x12, feature, 1, start, 0x200);
            text.toscsi(feature, 1, start, 0x1_0000);
            text.scsi(request, 0x1_0000, 0x1_0000);
            text.toata(request, 1, 0x200);
        }
    };
    ask(text);
    text.remove(0x0001_0003, 0);
    text.steps(3);
    ask(text);
    text.steps(2);
    ask(text);
}
