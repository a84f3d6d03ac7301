//! Pairs: a device's pages from before and after a session.

use super::draft::Case;
use super::pairs::Pairs;
use super::script_text::{row_of, Text};
use crate::rules::bench::after;

/// These pairs, in order.
pub fn add(pairs: &mut Pairs) {
    add_device_a(pairs);
    add_sixteen(pairs);
    add_longer(pairs);
}

/// The whole list after a script, in so many pages.
fn list_pages(mut text: Text, pages: u16) -> Vec<u8> {
    text.command(0x12, 0, pages, 0, 512 * usize::from(pages));
    after(&text.bytes()).page
}

/// Device A after some calls.
fn a(name: &str, calls: fn(&mut Text)) -> Case {
    let mut text = Text::with_a();
    calls(&mut text);
    Case::new(name, list_pages(text, 1))
}

/// Each state against a fresh A, and some against each other.
fn add_device_a(pairs: &mut Pairs) {
    let fresh = pairs.page(a("a-fresh", |_| {}));
    let removed = pairs.page(a("a-removed", |text| text.removal(0x0001_0003, 0)));
    let marked = pairs.page(a("a-step-3", |text| {
        text.remove(0x0001_0003, 0);
        text.steps(3);
    }));
    let cut_after = pairs.page(a("a-cut-3", |text| text.cut_removal(0x0001_0003, 3)));
    let limit = pairs.page(a("a-limit", |text| {
        text.removal(0x0001_0003, 0);
        text.removal(0x1, 0);
        text.remove(0x3, 0);
        text.steps(5);
    }));
    let graded = pairs.page(a("a-graded", |text| {
        text.lines(&["grade 1 cf", "grade 3 0", "grade 10003 65", "grade 20000 1"]);
    }));
    pairs.pair(fresh, fresh);
    for state in [marked, cut_after, limit, graded] {
        pairs.pair(fresh, state);
    }
    pairs.both_ways(fresh, removed);
    pairs.pair(marked, removed);
    pairs.pair(cut_after, removed);
    pairs.pair(removed, limit);
    for state in unmarked_states() {
        let state = pairs.page(state);
        pairs.pair(fresh, state);
    }
}

/// Removals that have not come to the marking store, or never will.
fn unmarked_states() -> Vec<Case> {
    vec![
        a("a-accepted", |text| text.remove(0x0001_0003, 0)),
        a("a-step-2", |text| {
            text.remove(0x0001_0003, 0);
            text.steps(2);
        }),
        a("a-cut-2", |text| text.cut_removal(0x0001_0003, 2)),
        a("a-winding-up", |text| {
            text.lines(&["grade 3 7f"]);
            text.remove(0x1, 1234);
            text.steps(2);
            text.line("error");
            text.steps(2);
        }),
    ]
}

/// `number` elements after some calls, listed in so many pages.
fn row(name: &str, number: u32, pages: u16, calls: fn(&mut Text)) -> Case {
    let mut text = Text::new();
    text.make(&row_of(number), 3);
    calls(&mut text);
    Case::new(name, list_pages(text, pages))
}

/// 16 elements, of which a page shows 15; and 15, all shown.
fn add_sixteen(pairs: &mut Pairs) {
    let fresh = pairs.page(row("row-16-fresh", 16, 1, |_| {}));
    let last = pairs.page(row("row-16-removed-16", 16, 1, |text| text.removal(16, 0)));
    let shown = pairs.page(row("row-16-removed-15", 16, 1, |text| text.removal(15, 0)));
    let fifteen = pairs.page(row("row-15-fresh", 15, 1, |_| {}));
    pairs.pair(fresh, last);
    pairs.pair(fresh, shown);
    pairs.both_ways(fresh, fifteen);
    let fresh = pairs.page(row("row-16-in-2-fresh", 16, 2, |_| {}));
    let last = pairs.page(row("row-16-in-2-removed-16", 16, 2, |text| {
        text.removal(16, 0);
    }));
    pairs.pair(fresh, last);
}

/// Removals up to the limit of 3 and a fourth one, cuts, and grades, those of
/// the last two elements of 128 too.
fn long_session(text: &mut Text) {
    text.removal(1, 0);
    text.lines(&["grade 2 cf", "grade f 0", "grade 10 65"]);
    text.lines(&["grade 7f 0", "grade 80 0"]);
    text.cut_removal(5, 1);
    text.removal(31, 0);
    text.cut_removal(16, 3);
    text.remove(7, 0);
    text.steps(5);
}

/// 31 elements, which fill two pages; 128, which do not fill nine and of which
/// eight show 127.
fn add_longer(pairs: &mut Pairs) {
    for (name, number, pages) in [
        ("row-31", 31, 2),
        ("row-128", 128, 9),
        ("row-128-in-8", 128, 8),
    ] {
        let fresh = pairs.page(row(&format!("{}-fresh", name), number, pages, |_| {}));
        let session = format!("{}-session", name);
        let session = pairs.page(row(&session, number, pages, long_session));
        pairs.pair(fresh, session);
    }
}
