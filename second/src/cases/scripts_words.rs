//! Scripts: the words of the calls.

use super::draft::Case;
use super::script_text::{table_a, Text};

/// One good line for each call.
const CALLS: [&str; 17] = [
    "element 1 1 20 3e8 0",
    "make 2",
    "command unlocked ec 0 0 0 0",
    "command locked ec 0 0 0 0",
    "command frozen ec 0 0 0 0",
    "step",
    "error",
    "cut",
    "comreset",
    "hardreset",
    "softreset",
    "grade 3 11",
    "cells",
    "length 200",
    "poke 0 0",
    "read 0 1 0",
    "poke 200 1",
];

pub fn cases() -> Vec<Case> {
    vec![
        no_device(),
        word_counts(),
        wrong_words(),
        digits(),
        fields(),
        states(),
        refused_changes_nothing(),
    ]
}

/// Before the first device; "a line that is not a call is still `not a call`".
fn no_device() -> Case {
    let mut text = Text::new();
    // Without an element, `make` is refused and leaves no device.
    for call in &CALLS[1..] {
        text.line(call);
        text.line(&format!("{} 0", call));
    }
    text.lines(&["cells", "step", "command unlocked 12 0 1 0 200"]);
    text.make(&table_a(), 0x81);
    text.lines(&["cells", "error", "grade 1 d0", "softreset", "command x"]);
    text.make(&table_a(), 2);
    text.cells();
    text.named("no-device")
}

/// "exactly its words": one word less and one word more, for each call.
fn word_counts() -> Case {
    let mut text = Text::with_a();
    for call in CALLS {
        let words: Vec<&str> = call.split(' ').collect();
        for fewer in 0..words.len() {
            text.line(&words[..fewer].join(" "));
        }
        text.line(call);
        text.line(&format!("{} {}", call, words[words.len() - 1]));
        text.line(&format!("{} 0", call));
        text.line(&format!("{} #", call));
    }
    text.cells();
    text.named("word-counts")
}

fn wrong_words() -> Case {
    let mut text = Text::with_a();
    text.lines(&[
        "Cut",
        "CUT",
        "cuts",
        "cu",
        "tuc",
        "reset",
        "com reset",
        "comreset",
        "COMRESET",
        "warmreset",
        "powercut",
        "Cells",
        "cell",
        "steps",
        "stop",
        "errors",
        "Error",
        "elements",
        "Element 1 1 1 1 1",
        "mak 2",
        "makes 2",
        "Make 2",
        "grades 3 1",
        "GRADE 3 1",
        "lengths 1",
        "Length 1",
        "pokes 0 0",
        "Poke 0 0",
        "reads 0 1 0",
        "Read 0 1 0",
        "Command unlocked ec 0 0 0 0",
        "commands unlocked ec 0 0 0 0",
        "list",
        "0",
        "0 0/00/00",
        "not a call",
        "no device",
        "quit",
        "exit",
        "make",
        "cells",
    ]);
    text.named("wrong-words")
}

/// "1 to 16 digits in either case".
fn digits() -> Case {
    let mut text = Text::with_a();
    for number in [
        "0",
        "00",
        "0000000000000011",
        "00000000000000011",
        "0000000000000000",
        "00000000000000000",
        "aB",
        "Ab",
        "cf",
        "CF",
        "Cf",
        "0x1",
        "x1",
        "1h",
        "11h",
        "+1",
        "-1",
        "1.",
        "1,0",
        "1_0",
        "g",
        "G",
        "/",
        ":",
        "@",
        "`",
        "f0",
        "00F0",
    ] {
        text.line(&format!("grade 3 {}", number));
    }
    text.cells();
    text.line("read 0 1 ffffffffffffffff");
    text.line("read 0 1 FFFFFFFFFFFFFFFF");
    text.line("read 0 1 10000000000000000");
    text.line("read 0 1 0ffffffffffffffff");
    text.named("numbers-digits")
}

/// A value that just fits its field and one that just does not.
fn fields() -> Case {
    let mut text = Text::with_a();
    let fields: [(&str, &[&str]); 19] = [
        ("element ? 1 0 a 0", &["ffffffff", "100000000"]),
        ("element 5 ? 0 0 0", &["ff", "100"]),
        ("element 6 1 ? a 0", &["ff", "100"]),
        (
            "element 7 1 0 ? 0",
            &["ffffffffffffffff", "10000000000000000"],
        ),
        ("element 8 1 0 a ?", &["0", "1", "2", "f", "00", "01", "10"]),
        ("make ?", &["ffff", "10000"]),
        (
            "command unlocked ? 0 0 0 0",
            &["ff", "100", "ec", "0ec", "1ec"],
        ),
        ("command unlocked ec ? 0 0 0", &["ffff", "10000"]),
        ("command unlocked ec 0 ? 0 0", &["ffff", "10000"]),
        (
            "command unlocked ec 0 0 ? 0",
            &["ffffffffffffffff", "10000000000000000"],
        ),
        (
            "command unlocked ec 0 0 0 ?",
            &["ffff", "10000", "10001", "fffff"],
        ),
        ("grade ? 1", &["3", "ffffffff", "100000000", "100000003"]),
        ("grade 3 ?", &["cf", "d0", "ff", "100", "110"]),
        (
            "length ?",
            &["0", "10000", "10001", "20000", "ffffffffffffffff"],
        ),
        ("poke ? 1", &["ffff", "10000", "10001"]),
        ("poke 0 ?", &["ff", "100"]),
        ("read ? 1 0", &["4100", "ffff", "10000"]),
        ("read 0 ? 0", &["1", "ffff", "10000", "10001"]),
        ("read 0 1 ?", &["ffffffffffffffff", "10000000000000000"]),
    ];
    for (call, values) in fields {
        for value in values {
            text.line(&call.replace('?', value));
        }
    }
    text.cells();
    text.named("numbers-fields")
}

/// STATE is `locked`, `unlocked` or `frozen`.
fn states() -> Case {
    let mut text = Text::with_a();
    for state in [
        "locked",
        "unlocked",
        "frozen",
        "Locked",
        "UNLOCKED",
        "lock",
        "froze",
        "0",
        "disabled",
        "unlockedx",
    ] {
        text.line(&format!("command {} 7c 0 0 0 0", state));
    }
    text.line("command 7c 0 0 0 0");
    text.named("command-states")
}

/// A line that is no call changes neither list, device nor page.
fn refused_changes_nothing() -> Case {
    let mut text = Text::with_a();
    text.remove(0x3, 0);
    text.line("length 200");
    text.lines(&[
        "step step",
        "cut now",
        "error 1",
        "grade 3 100",
        "grade 3",
        "make 10000",
        "make 0 0",
        "length 10001",
        "poke 0 100",
        "poke 10001 1",
        "command unlocked 7c 0 1 0 10001",
        "element 1 1 1 1 2",
        "cells 1",
        "softreset x",
    ]);
    text.lines(&["cells", "read 0 1 0", "make 0", "cells"]);
    text.named("not-a-call-changes-nothing")
}
