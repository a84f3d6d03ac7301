//! Pages: the examples, lengths and sizes.

use super::draft::{Case, Draft};

/// These pages, in order.
pub fn cases() -> Vec<Case> {
    let mut cases = Vec::new();
    cases.extend(examples());
    cases.extend(lengths());
    cases.extend(sizes());
    cases
}

/// The page of G1 and that of G2.
fn examples() -> Vec<Case> {
    vec![g1().named("g1"), Draft::blank(1).limit(2).named("g2")]
}

/// "G1 .. one descriptor, 0001_0003h".
pub fn g1() -> Draft {
    Draft::list(1, 1)
        .limit(2)
        .identifier(0, 0x0001_0003)
        .health(0, 0x70)
        .capacity(0, 500)
}

/// "an empty or broken length is refused at 0; longer input .. at 65536".
fn lengths() -> Vec<Case> {
    let mut cases = Vec::new();
    let odd = [0, 1, 31, 32, 63, 511, 513, 1023, 1025, 4607, 65_535, 65_537];
    for length in odd {
        cases.push(
            Draft::blank(1)
                .length(length)
                .named(&format!("length-{}", length)),
        );
    }
    for length in [512, 1024, 65_536] {
        cases.push(
            Draft::blank(length / 512)
                .limit(7)
                .named(&format!("length-{}", length)),
        );
    }
    for length in [511, 513, 1023, 1024, 65_535, 65_536, 65_537] {
        cases.push(
            Draft::list(1, 3)
                .length(length)
                .named(&format!("length-{}-of-good", length)),
        );
    }
    let long = vec![0xFF; 65_538];
    cases.push(Case {
        name: String::from("length-65538-of-ones"),
        data: long,
    });
    cases
}

/// Every size class, full pages also with more elements than fit.
fn sizes() -> Vec<Case> {
    let mut cases = Vec::new();
    for pages in [1usize, 2, 9, 128] {
        let room = 16 * pages as u32 - 1;
        for number in [0, 1, 15, 16] {
            if number < room {
                cases.push(
                    Draft::list(pages, number).named(&format!("pages-{}-list-{}", pages, number)),
                );
            }
        }
        cases.push(Draft::list(pages, room).named(&format!("pages-{}-all", pages)));
        cases.push(Draft::list(pages, room + 1).named(&format!("pages-{}-one-above", pages)));
    }
    for pages in [3usize, 4, 17] {
        let room = 16 * pages as u32 - 1;
        cases.push(Draft::list(pages, room - 1).named(&format!("pages-{}-one-free", pages)));
        cases.push(Draft::list(pages, room).named(&format!("pages-{}-all", pages)));
    }
    for number in [17, 31, 128, 0x100, 0x1_0000, 0x0F00_0000, 0x8000_0000] {
        cases.push(Draft::list(1, number).named(&format!("pages-1-number-{:x}", number)));
    }
    cases.push(Draft::list(1, u32::MAX).named("pages-1-number-ffffffff"));
    cases.push(Draft::list(2, u32::MAX).named("pages-2-number-ffffffff"));
    cases
}
