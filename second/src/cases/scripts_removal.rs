//! Scripts: REMOVE ELEMENT AND TRUNCATE, its checks.

use super::draft::Case;
use super::script_text::{other, row_of, storage, table_a, Text};

pub fn cases() -> Vec<Case> {
    vec![
        identifiers(),
        addresses(),
        small_native(),
        zero_blocks(),
        security(),
        check_order(),
        removed_element(),
        limits(),
        without_limit(),
    ]
}

/// "Identifier = FEATURE x 65,536 + COUNT", not COUNT alone, not exchanged.
fn identifiers() -> Case {
    let mut text = Text::new();
    let registers = [
        (0, 1),
        (0, 2),
        (0, 3),
        (1, 0),
        (1, 1),
        (1, 3),
        (2, 0),
        (2, 1),
        (2, 3),
        (3, 0),
        (3, 1),
        (0xFFFF, 0xFFFF),
        (0x100, 0x300),
    ];
    for (feature, count) in registers {
        text.make(&table_a(), 2);
        text.command(0x7C, feature, count, 0, 0);
        text.cells();
    }
    text.make(&[storage(0xFFFF_FFFF, 0, 10)], 0);
    text.command(0x7C, 0xFFFF, 0xFFFF, 0, 0);
    text.make(&[storage(5, 0, 10), storage(0xFFFF_FFFF, 0, 10)], 0);
    text.command(0x7C, 0xFFFF, 0xFFFF, 0, 0);
    text.cells();
    text.named("remove-identifiers")
}

/// "LBA, if not 0, above that difference: 4"; bits above 47 are ignored.
fn addresses() -> Case {
    let mut text = Text::new();
    let addresses: [u64; 17] = [
        0,
        1,
        2,
        1998,
        1999,
        2000,
        2998,
        2999,
        3000,
        0xFFFF_FFFF_FFFF,
        1 << 47,
        1 << 48,
        (1 << 48) + 1,
        (1 << 48) + 1999,
        (1 << 48) + 2000,
        0xFFFF_0000_0000_07CF,
        u64::MAX,
    ];
    for lba in addresses {
        text.make(&table_a(), 2);
        text.remove(0x1, lba);
        text.cells();
        text.steps(5);
        text.cells();
    }
    text.named("remove-addresses")
}

/// "native max minus the element's blocks is below 1: 4", also far below 0.
fn small_native() -> Case {
    let mut text = Text::new();
    for lba in [1, 2, 499, 500, 501, 502, 999, 1000, 1001, 1002, 1500, 1501] {
        text.make(&table_a(), 0);
        text.removal(0x0001_0003, lba);
        text.remove(0x1, 0);
        text.remove(0x1, 1);
        text.remove(0x1, 2);
        text.cells();
    }
    // One element only: nothing would be left.
    text.make(&[storage(1, 0, 10)], 0);
    text.remove(1, 0);
    text.remove(1, 1);
    // A difference of 0, 1 and 2 at the start.
    for blocks in [1, 2, 3] {
        text.make(&[storage(1, 0, 10), storage(2, 0, blocks)], 0);
        text.removal(1, 0);
        text.cells();
    }
    text.named("remove-small-native")
}

/// A storage element without blocks: the new maximum may equal the old.
fn zero_blocks() -> Case {
    let mut text = Text::new();
    for lba in [0, 9, 10] {
        text.make(&[storage(1, 0, 0), storage(2, 0, 10)], 0);
        text.remove(1, lba);
        text.cells();
        text.steps(2);
        text.line("error");
        text.steps(4);
        text.cells();
    }
    text.named("remove-zero-blocks")
}

/// "under locked, unlocked, frozen this command is aborted, runs, runs".
fn security() -> Case {
    let mut text = Text::new();
    for state in ["locked", "unlocked", "frozen"] {
        text.make(&table_a(), 2);
        text.remove_under(state, 0x3, 0);
        text.cells();
        text.line(&format!("command {} 12 0 1 0 200", state));
        text.line(&format!("command {} 25 0 1 0 0", state));
        text.steps(5);
        text.remove_under(state, 0x3, 0);
        text.cells();
    }
    text.named("remove-security")
}

/// Each pair of checks in conflict: the earlier one answers.
fn check_order() -> Case {
    let mut text = Text::with_a();
    // 1 before 3.
    text.remove_under("locked", 0x2, 0);
    text.remove_under("locked", 0x0002_0000, 0);
    // 1 before 7.
    text.remove_under("locked", 0x1, 2998);
    text.cut_removal(0x0001_0003, 3);
    // 1 before 4: the mark stays.
    text.remove_under("locked", 0x0001_0003, 0);
    text.cells();
    text.remove(0x1, 0);
    // 1 before 2; 2 before 3, 4, 6 and 7, in work and in winding up.
    for event in ["step", "step", "error", "step", "step"] {
        for state in ["locked", "unlocked", "frozen"] {
            for identifier in [0x0, 0x1, 0x2, 0x3, 0x0001_0003, 0x0002_0000] {
                text.remove_under(state, identifier, 0xFFFF_FFFF);
            }
        }
        text.cells();
        text.line(event);
    }
    text.named("remove-check-order")
}

/// Check 4 comes before the limit (5), the addresses (6) and the LBA (7).
fn removed_element() -> Case {
    let mut text = Text::new();
    text.make(&table_a(), 1);
    // Native 1 is below the blocks of the removed element.
    text.remove(0x0001_0003, 1);
    text.steps(3);
    text.line("error");
    text.steps(4);
    text.cells();
    for lba in [0xFFFF_FFFF_FFFF, 0, 1, 2, u64::MAX] {
        text.remove(0x0001_0003, lba);
        text.cells();
    }
    // An element that is not at FFh gets 4 by the limit.
    text.remove(0x1, 0);
    text.remove_under("locked", 0x0001_0003, 0);
    text.remove_under("frozen", 0x0001_0003, 2);
    text.cells();
    text.named("remove-removed")
}

/// "limit not 0 and as many elements already FFh: 4".
fn limits() -> Case {
    let mut text = Text::new();
    for limit in [1, 2, 3, 128] {
        text.make(&row_of(6), limit);
        for identifier in [6, 2, 4, 1] {
            text.removal(identifier, 0);
        }
        text.cells();
    }
    text.named("remove-limits")
}

/// "0 means not reported and no limit".
fn without_limit() -> Case {
    let mut text = Text::new();
    let mut table = row_of(20);
    table.push(other(0x40, 0xFE));
    text.make(&table, 0);
    for identifier in (2..=20).rev() {
        text.removal(identifier, 0);
    }
    text.cells();
    text.command(0x12, 0x4000, 2, 0, 0x400);
    text.remove(1, 0);
    text.named("remove-without-limit")
}
