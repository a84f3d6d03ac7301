//! Scripts: the offered list and the kept page.

use super::draft::{Case, Draft};
use super::script_text::{row_of, table_a, Text};

pub fn cases() -> Vec<Case> {
    vec![offered_list(), kept_page(), pokes()]
}

/// "(the list keeps its first 129)"; `make` empties it in either case.
fn offered_list() -> Case {
    let mut text = Text::new();
    // The 129th makes it too long; the 130th and later ones are not kept.
    for number in [128, 129, 130, 131] {
        text.make(&row_of(number), 0);
    }
    for one in row_of(128) {
        text.element(&one);
    }
    text.line("element 81 1 0 a 2");
    text.line("make 10000");
    text.line("make 0");
    text.line("make 0");
    text.make(&table_a(), 2);
    text.cells();
    text.named("offered-list")
}

/// The kept page is empty at first and outlives refusals and new devices.
fn kept_page() -> Case {
    let mut text = Text::new();
    text.lines(&[
        "read 0 0 0",
        "read 0 1 0",
        "poke 0 1",
        "length 0",
        "poke 0 1",
    ]);
    text.make(&table_a(), 2);
    text.lines(&["read 0 1 0", "command unlocked 12 0 1 0 200", "read 0 1 0"]);
    text.lines(&["command unlocked 12 0 0 0 200", "read 0 1 0"]);
    text.lines(&["command unlocked 12 0 2 0 200", "read 0 1 0"]);
    text.lines(&["command unlocked 25 0 1 0 200", "read 0 1 0"]);
    text.lines(&["make 0", "read 0 1 0", "cut", "read 0 1 0"]);
    text.make(&row_of(2), 0);
    text.lines(&["read 0 1 0", "command unlocked 12 0 2 0 600", "read 0 2 0"]);
    text.lines(&["read 0 1 0", "length 200", "read 0 1 0", "length 20"]);
    text.lines(&[
        "length 200",
        "read 0 1 0",
        "poke 0 0",
        "poke 4 0",
        "read 0 1 0",
    ]);
    text.named("kept-page")
}

/// "changes a byte and answers nothing, or `outside` past its end".
fn pokes() -> Case {
    let mut text = Text::new();
    for length in ["0", "1", "200", "10000"] {
        text.line(&format!("length {}", length));
        for place in ["0", "1", "2", "1ff", "200", "201", "ffff", "10000"] {
            text.line(&format!("poke {} 5a", place));
        }
        text.line("length 0");
    }
    text.page(&Draft::list(1, 2));
    text.lines(&[
        "read 0 1 0",
        "poke 1ff 1",
        "read 0 1 0",
        "poke 1ff 0",
        "read 0 1 0",
    ]);
    text.named("pokes")
}
