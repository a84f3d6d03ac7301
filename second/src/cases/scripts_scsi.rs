//! Scripts: the words of the calls of request 2026-03, and the kept page that
//! serves both kinds.

use super::docks_size::example;
use super::draft::Case;
use super::script_text::{table_a, Text, ALL};

/// One good line for each call.
const CALLS: [&str; 4] = [
    "scsi 1 1 0 ffffffff 100",
    "scsiread 1 1 0",
    "toata 1 1 0 1 200",
    "toscsi 4100 1 0 40",
];

pub fn cases() -> Vec<Case> {
    vec![examples(), no_device(), words(), fields(), kept()]
}

/// Device A's data for filter 1 and report type 1, read, and there and back.
fn examples() -> Case {
    let mut text = Text::with_a();
    text.lines(&CALLS);
    text.line("scsiread 1 1 0");
    text.scsi(ALL, u32::MAX, 0x1_0000);
    text.scsiread(ALL);
    text.scsi(ALL, 100, 100);
    text.scsiread(ALL);
    text.scsi(ALL, 96, 96);
    text.scsiread(ALL);
    text.named("scsi-example")
}

/// Before the first device only `scsi` needs one.
fn no_device() -> Case {
    let mut text = Text::new();
    for call in CALLS {
        text.line(call);
        text.line(&format!("{} 0", call));
    }
    text.lines(&["scsi 2 0 0 0 0", "scsi 0 0 0 0 0", "scsi 0 0 0 0 10001"]);
    // Without a device what was kept stays, and is read and converted.
    text.page(&example());
    text.line("scsi 0 0 0 0 0");
    text.lines(&CALLS);
    text.make(&table_a(), 0x81);
    text.line("scsi 0 0 0 ffffffff 10000");
    text.line("scsiread 1 1 0");
    text.named("scsi-no-device")
}

/// "exactly its words", as they are written.
fn words() -> Case {
    let mut text = Text::with_a();
    word_counts(&mut text);
    wrong_words(&mut text);
    text.named("scsi-words")
}

/// Fewer and more, for each call.
fn word_counts(text: &mut Text) {
    for call in CALLS {
        let words: Vec<&str> = call.split(' ').collect();
        for fewer in 1..words.len() {
            text.line(&words[..fewer].join(" "));
        }
        text.line(call);
        text.line(&format!("{} {}", call, words[words.len() - 1]));
        text.line(&format!("{} 0", call));
        text.line(&format!("{} #", call));
        text.line(&format!("  {}  ", call.replace(' ', "   ")));
    }
}

fn wrong_words(text: &mut Text) {
    for call in CALLS {
        text.line(&call.to_uppercase());
        text.line(&format!("S{}", &call[1..]));
        text.line(&call.replacen(' ', "s ", 1));
        text.line(&call[1..]);
    }
    text.lines(&[
        "scsi unlocked 0 0 0 ffffffff 100",
        "scsi read 0 0 0",
        "scsi-read 0 0 0",
        "readscsi 0 0 0",
        "to scsi 0 1 0 100",
        "to ata 0 0 0 1 200",
        "toscsi 0 0 0 1 200",
        "toata 0 1 0 200",
        "list --scsi",
        "convert scsi",
        "convert ata 1",
        "scsi -1 0 0 0 0",
        "scsi 0x1 0 0 0 0",
        "scsi 0 0 0 g 0",
        "scsi 0 0 0 100h 0",
    ]);
}

/// A value that just fits its field and one that just does not, in either case.
fn fields() -> Case {
    let mut text = Text::with_a();
    let ff: &[&str] = &["ff", "FF", "0ff", "100", "101", "0000000000000001"];
    let ffffffff: &[&str] = &["ffffffff", "FFFFffff", "100000000", "00000000000000000"];
    let ffff: &[&str] = &["ffff", "FFFF", "10000", "10001"];
    let lengths: &[&str] = &["ffff", "10000", "10001", "fffff"];
    let lba: &[&str] = &[
        "ffffffffffffffff",
        "ffff0000ffffffff",
        "1000000000000",
        "1000000000001",
        "10000000000000000",
    ];
    let fields: [(&str, &[&str]); 17] = [
        ("scsi ? 0 0 0 0", ff),
        ("scsi 0 ? 0 0 0", ff),
        ("scsi 0 0 ? 20 20", ffffffff),
        ("scsi 0 0 20000 ? 40", ffffffff),
        ("scsi 0 0 0 20 ?", lengths),
        ("scsiread ? 0 0", ff),
        ("scsiread 0 ? 0", ff),
        ("scsiread 0 0 ?", ffffffff),
        ("toata ? 0 0 1 200", ff),
        ("toata 0 ? 0 1 200", ff),
        ("toata 0 0 ? 1 100", ffffffff),
        ("toata 0 0 0 ? 200", ffff),
        ("toata 0 0 0 0 ?", lengths),
        ("toscsi ? 1 0 20", &["4100", "ffff", "10000"]),
        ("toscsi 0 ? 0 20", ffff),
        ("toscsi 0 1 ? 10", lba),
        ("toscsi 0 0 0 ?", lengths),
    ];
    for (call, values) in fields {
        // What the other calls find: an empty list as SCSI data, then as a page.
        text.line("length 0");
        let length = if call.starts_with("toscsi") {
            "200"
        } else {
            "20"
        };
        text.line(&format!("length {}", length));
        for value in values {
            text.line(&call.replace('?', value));
        }
    }
    text.named("scsi-fields")
}

/// What is answered 0 is kept, exactly the bytes written, and nothing else is.
fn kept() -> Case {
    let mut text = Text::with_a();
    text.scsi(ALL, 64, 64);
    text.line("scsiread 0 0 0");
    // Refusals keep it.
    text.lines(&[
        "scsi 2 0 0 40 40",
        "scsi 0 0 0 40 3f",
        "toscsi 0 1 0 10000",
        "toata 0 0 0 1 10000",
        "scsiread 0 0 0",
    ]);
    // With an allocation length of 0 nothing is written, and nothing kept.
    text.lines(&["scsi 0 0 0 0 0", "scsiread 0 0 0", "poke 0 0", "length 0"]);
    text.lines(&["toata 0 0 0 1 200", "toscsi 0 0 0 0", "read 0 1 0"]);
    text.lines(&["scsi 0 0 0 20 20", "length 40", "scsiread 0 0 0"]);
    text.lines(&["scsi 0 0 20000 40 40", "length 1f", "scsiread 0 0 0"]);
    text.lines(&["length 20", "scsiread 0 0 0", "poke 7 0", "poke 3 0"]);
    text.lines(&["scsiread 0 0 0", "poke 20 1", "length 21", "scsiread 0 0 0"]);
    // A page of 12h takes its place, and it that of a page.
    text.command(0x12, 0x4100, 1, 0, 0x200);
    text.lines(&["read 4100 1 0", "toscsi 4100 1 0 3f", "read 4100 1 0"]);
    text.lines(&["toscsi 4100 1 0 40", "read 4100 1 0", "scsiread 1 1 0"]);
    text.lines(&["toata 1 1 0 1 1ff", "scsiread 1 1 0"]);
    text.lines(&["toata 1 1 0 1 200", "scsiread 1 1 0", "read 4100 1 0"]);
    // A new device leaves it.
    text.make(&table_a()[..2], 0);
    text.lines(&["read 4100 1 0", "scsi 1 0 0 20 20", "scsiread 1 0 0"]);
    no_calls(&mut text);
    text.named("scsi-kept")
}

/// A line that is no call changes nothing.
fn no_calls(text: &mut Text) {
    text.scsi((0, 0, 3), u32::MAX, 64);
    for line in [
        "scsi 0 0 0 ffffffff 10001",
        "scsi 0 0 0 100000000 10000",
        "scsi 0 0 0 0",
        "toata 1 1 0 1 10001",
        "toata 1 1 0 10001 10000",
        "toata 1 1 0 1",
        "toscsi 4100 1 0",
        "scsiread 1 1",
    ] {
        text.line(line);
        text.line("scsiread 0 0 3");
    }
    text.cells();
}
