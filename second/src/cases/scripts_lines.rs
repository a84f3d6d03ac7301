//! Scripts: how the input is put into lines and lines into words.

use super::draft::Case;
use super::script_text::Text;

pub fn cases() -> Vec<Case> {
    vec![
        line_lengths(),
        very_long_lines(),
        spaces(),
        comments(),
        other_bytes(),
        last_line("ends-without-newline", b"cells\ncut"),
        last_line("ends-in-newline", b"cells\ncut\n"),
        last_line("ends-in-empty-lines", b"cells\ncut\n\n\n"),
        last_line("ends-in-comment", b"cut\n# cells"),
        last_line("ends-in-spaces", b"cut\n   "),
        last_line("ends-in-part-of-a-call", b"cut\ncell"),
        ends_in_long_line(200),
        ends_in_long_line(201),
        Text::new().named("empty-script"),
    ]
}

/// A line of `length` bytes: `start`, then `filling`.
fn padded(start: &str, filling: u8, length: usize) -> Vec<u8> {
    let mut line = start.as_bytes().to_vec();
    line.resize(length, filling);
    line
}

/// "A line of more than 200 bytes .. is `not a call`, whatever it holds."
fn line_lengths() -> Case {
    let mut text = Text::with_a();
    for length in [199, 200, 201, 202, 256, 400, 401, 402] {
        for (start, filling) in [
            ("cut", b' '),
            ("", b' '),
            ("#", b' '),
            ("# comment", b'c'),
            ("cut", b't'),
            ("   cells", b' '),
            ("step", b'\t'),
        ] {
            text.raw(&padded(start, filling, length));
            text.raw(b"\n");
        }
        let spaces = " ".repeat(length - 3);
        text.line(&format!("{}cut", spaces));
    }
    text.named("lines-of-200-and-201")
}

/// Lines longer than any buffer; the next line is a call again.
fn very_long_lines() -> Case {
    let mut text = Text::with_a();
    for length in [1000, 4095, 4096, 4097, 8193] {
        text.raw(&padded("cut ", b' ', length));
        text.raw(b"\ncut\n");
        text.raw(&padded("#", b'#', length));
        text.raw(b"\n\ncut\n");
    }
    text.raw(&padded("cut ", b' ', 66_000));
    text.raw(b"\ncells\n");
    text.named("lines-very-long")
}

/// "Words are separated by one or more spaces".
fn spaces() -> Case {
    let mut text = Text::with_a();
    text.lines(&[
        " cut",
        "cut ",
        "   cut   ",
        "  grade   3    11  ",
        "grade 3  12",
        "grade3 12",
        "grade 312",
        "c ut",
        "",
        " ",
        "          ",
        "  cells",
        "cells ",
    ]);
    text.named("lines-with-spaces")
}

/// "whose first word starts with `#`".
fn comments() -> Case {
    let mut text = Text::with_a();
    text.lines(&[
        "#",
        "##",
        "# cut",
        "#cut",
        "   # cut",
        "   #cut and more words",
        "cut #",
        "cut # comment",
        "cut#",
        "grade # 3 10",
        "grade 3 10#",
        "$ cut",
        "cells",
    ]);
    text.raw(b"#\xFF\x00\x80\n\t# cut\n");
    text.named("lines-with-comments")
}

/// "no other byte is a space"; any byte may come.
fn other_bytes() -> Case {
    let mut text = Text::with_a();
    for byte in 0..=0xFFu8 {
        if byte != b'\n' {
            text.raw(&[b'c', b'u', b't', byte, b'\n']);
            text.raw(&[byte, b'c', b'u', b't', b'\n']);
            text.raw(&[b'c', b'u', b't', b' ', byte, b'\n']);
            text.raw(b"grade 3 ");
            text.raw(&[byte, b'\n']);
            text.raw(b"grade 3 1");
            text.raw(&[byte, b'\n']);
        }
    }
    text.raw(b"cut\r\ncells\r\n\r\n#\r\ncells\n");
    text.named("lines-of-any-bytes")
}

/// How the end of the input is read.
fn last_line(name: &str, ending: &[u8]) -> Case {
    let mut text = Text::with_a();
    text.raw(ending);
    text.named(name)
}

/// A last line of 200 or 201 bytes without a newline.
fn ends_in_long_line(length: usize) -> Case {
    let mut text = Text::with_a();
    text.raw(&padded("cut", b' ', length));
    text.named(&format!("ends-in-line-of-{}", length))
}
