//! Document 01's bench examples, run on the bench, and some of requests 2026-03 to
//! 2026-05.

use crate::cases::docks_size::example;
use crate::cases::pages_size::g1;
use crate::cases::script_text::{other, row_of, storage};
use crate::cases::walks::{walk, Asked};
use crate::rules::answer::Answer;
use crate::rules::bench::run;
use crate::rules::device::Device;
use crate::rules::layout::Descriptor;
use crate::rules::listing::{list, list_scsi};
use crate::rules::reader::read;
use crate::rules::request::Registers;
use crate::rules::table::Element;

const MAKE_A: &str = "element 1 1 20 3e8 0
element 3 1 10 5dc 0
element 10003 1 70 1f4 0
element 20000 2 0 0 0
make 2
";
const R1: &str = "command unlocked 7C 1 3 0 0\nstep\nstep\nstep\nstep\nstep\n";
const DONE: &str = "0 0/00/00";
const REFUSED: &str = "4 5/24/00";

/// The answers of a fresh A to `script`, that of `make` left out.
fn answers(script: &str) -> Vec<String> {
    let text = run(format!("{}{}", MAKE_A, script).as_bytes());
    let mut lines = text.lines().map(String::from);
    assert_eq!(lines.next().as_deref(), Some(DONE));
    lines.collect()
}

/// All calls of `script` are answered 0, and `cells` then says `expected`.
fn leads_to(script: &str, expected: &str, element: &str) {
    let all = answers(&format!("{}cells\n", script));
    let calls = script.lines().count();
    assert!(all[..calls].iter().all(|answer| answer == DONE));
    assert_eq!(all[calls], expected);
    assert!(all[calls + 1..].contains(&String::from(element)));
}

fn last_answer(script: &str) -> String {
    answers(script).pop().unwrap_or_default()
}

const R5: &str = "command unlocked 7C 1 3 0 0\nstep\nstep\ncut\nstep\nstep\nstep\nstep\n";
const R6: &str = "command unlocked 7C 1 3 0 0\nstep\nstep\nstep\ncut\nstep\nstep\nstep\nstep\n";

#[test]
fn r1() {
    leads_to(
        R1,
        "limit 2 native 2499 accessible 2499 failed 0 note - position work1",
        "00010003 01 FF 500 0",
    );
}

#[test]
fn r2_r3_r4() {
    assert_eq!(last_answer("command unlocked 7C 0 0 0 0\n"), REFUSED);
    assert_eq!(last_answer("command unlocked 7C 2 0 0 0\n"), REFUSED);
    assert_eq!(last_answer("command unlocked 7C 1 3 9C3 0\n"), DONE);
    assert_eq!(last_answer("command unlocked 7C 1 3 9C4 0\n"), REFUSED);
}

#[test]
fn r5_r6_r7() {
    leads_to(
        R5,
        "limit 2 native 2999 accessible 2999 failed 1 note - position work1",
        "00010003 01 70 500 0",
    );
    leads_to(
        R6,
        "limit 2 native 2499 accessible 2499 failed 1 note - position work1",
        "00010003 01 FF 500 0",
    );
    leads_to(
        &format!("{}command unlocked 7C 1 3 FFFFFFFFFFFF 0\n", R6),
        "limit 2 native 2499 accessible 2499 failed 0 note - position work1",
        "00010003 01 FF 500 0",
    );
}

#[test]
fn r8() {
    let element_1 = "command unlocked 7C 0 1 0 0\nstep\nstep\nstep\nstep\nstep\n";
    let script = format!("{}{}", R1, element_1);
    leads_to(
        &script,
        "limit 2 native 1499 accessible 1499 failed 0 note - position work1",
        "00000001 01 FF 1000 0",
    );
    let then = format!("{}command unlocked 7C 0 3 0 0\n", script);
    assert_eq!(last_answer(&then), REFUSED);
}

/// "limit 1, after R1 element 1 gives 4": the limit by itself.
#[test]
fn limit_by_itself() {
    let limit_1 = MAKE_A.replace("make 2", "make 1");
    let script = format!("{}{}command unlocked 7C 0 1 0 0\n", limit_1, R1);
    assert_eq!(run(script.as_bytes()).lines().last(), Some(REFUSED));
}

#[test]
fn g1_and_its_listing() {
    let page = answers("command unlocked 12 4100 1 0 200\n");
    let expected = [
        DONE,
        "0100000001000000000000000200000000000000000000000000000000000000",
        "00000000030001000000000000000170F4010000000000000000000000000000",
        "zeros 14",
    ];
    assert_eq!(page, expected);
    assert_eq!(
        list(&g1().bytes()).text,
        "number 1 returned 1 busy 00000000 limit 2 removed 0\n00010003 01 70 500\n"
    );
}

/// "Example G2 now gets 4" (request 2026-05), its buffer untouched.
#[test]
fn g2_g3_g4() {
    let g2 = answers("command unlocked 12 4100 1 100000000 200\n");
    assert_eq!(g2, [REFUSED]);
    assert_eq!(last_answer("command unlocked 12 4100 0 0 200\n"), REFUSED);
    assert_eq!(last_answer("command unlocked 12 8000 1 0 200\n"), REFUSED);
}

/// "16 matching elements, one page: N = 16, returned 15."
#[test]
fn sixteen_in_one_page() {
    let mut script = String::new();
    for identifier in 1..=16 {
        script += &format!("element {:x} 1 0 64 0\n", identifier);
    }
    script += "make 0\ncommand unlocked 12 0 1 0 200\nread 0 1 0\n";
    let text = run(script.as_bytes());
    let header = "number 16 returned 15 busy 00000000 limit 0 removed 0";
    assert!(text.contains(header), "{}", text);
}

/// "After R1, 25h: LBA 2,499 COUNT 1: 0; COUNT 2: 5. After R5 or R6: 3."
#[test]
fn media_access() {
    let after = |before: &str, count: u8| {
        let script = format!("{}command unlocked 25 0 {} 9C3 0\n", before, count);
        last_answer(&script)
    };
    assert_eq!(after(R1, 1), DONE);
    assert_eq!(after(R1, 2), "5 5/21/00");
    assert_eq!(after(R5, 1), "3 3/31/04");
    assert_eq!(after(R6, 1), "3 3/31/04");
}

/// Request 2026-03: device A's data for filter 1 and report type 1, computed by hand.
const SCSI: [&str; 3] = [
    "bytes 64",
    "0000000100000001000000000002000000000000000000000000000000000000",
    "0000000000010003000000000000017000000000000001F40000000000000000",
];

/// What `scsiread` says of it: `0`, the header, then what is in `rest`.
fn read_back(rest: &str) -> Vec<String> {
    let text = "0\nnumber 1 returned 1 busy 00000000 limit 2 removed 0\n";
    let text = format!("{}{}", text, rest);
    text.lines().map(String::from).collect()
}

#[test]
fn scsi_written_and_read() {
    let written = answers("scsi 1 1 0 ffffffff 40\n");
    assert_eq!(written, [&[DONE], &SCSI[..]].concat());
    let read = answers("scsi 1 1 0 40 40\nscsiread 1 1 0\n");
    assert_eq!(read[4..], read_back("00010003 0 01 70 500\n"));
}

/// "cut at an allocation length in bytes": 0 writes nothing.
#[test]
fn scsi_cut() {
    assert_eq!(answers("scsi 1 1 0 0 0\n"), [DONE, "bytes 0"]);
    let header = answers("scsi 1 1 0 5 5\n");
    assert_eq!(header, [DONE, "bytes 5", "0000000100"]);
    let cut = answers("scsi 1 1 0 20 20\nscsiread 1 1 0\n");
    assert_eq!(cut[3..], read_back("cut 0 of 1\n"));
    let torn = answers("scsi 1 1 0 3f 3f\nscsiread 1 1 0\n");
    assert_eq!(torn[4..], read_back("torn 0 of 1\n"));
}

#[test]
fn scsi_refusals() {
    assert_eq!(last_answer("scsi 2 0 0 40 0\n"), REFUSED);
    assert_eq!(last_answer("scsi 0 ff 0 0 0\n"), REFUSED);
    assert_eq!(last_answer("scsi 1 1 0 40 3f\n"), "7");
    let offence = |changes: &str| {
        let script = format!("scsi 1 1 0 40 40\n{}scsiread 1 1 3\n", changes);
        last_answer(&script)
    };
    assert_eq!(offence("length 1f\n"), "9 at 0");
    assert_eq!(offence("poke 3 2\n"), "9 at 4");
    assert_eq!(offence("poke 25 0\npoke 27 2\n"), "9 at 36");
    assert_eq!(offence("poke 2d 1\n"), "9 at 45");
    assert_eq!(offence("poke 2e 2\n"), "9 at 46");
    assert_eq!(offence("poke 2f 64\n"), "9 at 47");
    assert_eq!(offence("length 41\n"), "9 at 64");
    assert_eq!(offence("poke 0 8\npoke 4 8\n"), "cut 1 of 134217729");
}

#[test]
fn converted_there_and_back() {
    let to_ata = answers("scsi 1 1 0 40 40\ntoata 1 1 0 1 200\n");
    assert_eq!(to_ata[4], "0");
    let page = answers("command unlocked 12 4100 1 0 200\n");
    assert_eq!(to_ata[5..], page[1..]);
    let back = answers("scsi 1 1 0 40 40\ntoata 1 1 0 1 200\ntoscsi 4100 1 0 40\n");
    assert_eq!(back[8], "0");
    assert_eq!(back[9..], SCSI);
}

#[test]
fn conversions_refused() {
    let scsi = "scsi 0 0 0 a0 a0\n";
    let after = |script: &str| last_answer(&format!("{}{}", scsi, script));
    assert_eq!(after("toata 0 0 0 0 200\n"), "9 at 4");
    assert_eq!(after("toata 0 0 0 1 1ff\n"), "7");
    assert_eq!(after("length 80\ntoata 0 0 0 1 200\n"), "9 at 4");
    assert_eq!(after("length a1\ntoata 0 0 0 0 0\n"), "9 at 160");
    let page = "command unlocked 12 0 1 0 200\n";
    assert_eq!(last_answer(&format!("{}toscsi 0 1 0 9f\n", page)), "7");
    let cut = format!("{}poke 0 10\npoke 4 f\ntoscsi 0 1 0 10000\n", page);
    assert_eq!(last_answer(&cut), "9 at 164");
}

#[test]
fn scsi_listed() {
    let whole = "number 1 returned 1 busy 00000000 limit 2 removed 0\n00010003 01 70 500\n";
    assert_eq!(list_scsi(&example().bytes()).text, whole);
    let torn = "number 1 returned 1 busy 00000000 limit 2 removed 0\ntorn 0 of 1\n";
    assert_eq!(list_scsi(&example().length(33).bytes()).text, torn);
    let refused = "refused 9 at 64\n";
    assert_eq!(list_scsi(&example().length(65).bytes()).text, refused);
}

/// What the bench says of `script` after a page of one with elements 1 to `number`.
fn after_page(number: u32, script: &str) -> String {
    let mut text = String::new();
    for identifier in 1..=number {
        text += &format!("element {:x} 1 0 64 0\n", identifier);
    }
    text += "make 0\ncommand unlocked 12 0 1 0 200\n";
    text += script;
    let answers = run(text.as_bytes());
    answers
        .lines()
        .last()
        .map_or_else(String::new, String::from)
}

/// Request 2026-04: fifteen elements fill a page, the sixteenth is one to ask for.
#[test]
fn next_after_a_page() {
    assert_eq!(
        last_answer("command unlocked 12 0 1 0 200\nnext 0 1 0\n"),
        "end"
    );
    assert_eq!(after_page(15, "next 0 1 0\n"), "end");
    assert_eq!(after_page(16, "next 0 1 0\n"), "ask 00000010");
    let second = "command unlocked 12 0 1 10 200\nnext 0 1 10\n";
    assert_eq!(after_page(16, second), "end");
    assert_eq!(after_page(128, "next 0 1 0\n"), "ask 00000010");
    let two_pages = "command unlocked 12 0 2 0 400\nnext 0 2 0\n";
    assert_eq!(after_page(128, two_pages), "ask 00000020");
}

/// The 15th descriptor stands at 1E0h, its identifier at 1E4h to 1E7h.
#[test]
fn next_after_a_lying_page() {
    let after = |pokes: &str| after_page(16, &format!("{}next 0 1 0\n", pokes));
    let high = "poke 1e5 ff\npoke 1e6 ff\npoke 1e7 ff\n";
    assert_eq!(after(high), "ask FFFFFF10");
    assert_eq!(after(&format!("{}poke 1e4 fe\n", high)), "ask FFFFFFFF");
    assert_eq!(after(&format!("{}poke 1e4 ff\n", high)), "end");
}

#[test]
fn next_refused() {
    let after = |script: &str| after_page(16, script);
    assert_eq!(after("next 0 2 0\n"), "9 at 0");
    assert_eq!(after("next 8000 1 0\n"), "9 at 0");
    assert_eq!(after("poke 4 10\nnext 0 1 0\n"), "9 at 4");
    assert_eq!(after("next 0 1 2\n"), "9 at 36");
    assert_eq!(after("next 4000 1 0\n"), "9 at 47");
    assert_eq!(after("poke 0 e\npoke 4 e\nnext 0 1 0\n"), "9 at 484");
    assert_eq!(
        run(b"next 0 1 0\nlength 200\nnext 0 1 0\n"),
        "9 at 0\nlength 512\nend\n"
    );
}

/// Devices whose lists fill a page or not, with gaps, and up to FFFF_FFFFh.
fn walked_devices() -> Result<Vec<Device>, Answer> {
    let mut tables = Vec::new();
    for number in [1, 14, 15, 16, 30, 31, 46, 127, 128] {
        tables.push(row_of(number));
    }
    let mixed = |k: u32| match k % 3 {
        0 => other(k << 12, 0x02),
        _ => storage(k << 12, (k * 5 % 0xD0) as u8, 100),
    };
    tables.push((1..=100).map(mixed).collect());
    let high: Vec<Element> = (0..32)
        .map(|k| storage(u32::MAX - 31 + k, 0x70, 9))
        .collect();
    tables.push(high);
    tables.iter().map(|table| Device::make(table, 0)).collect()
}

/// The descriptors of the page that a device writes for a request.
fn listed(device: &Device, (feature, count, lba): Asked) -> Vec<Descriptor> {
    let registers = Registers::new(feature, count, lba);
    let mut page = vec![0; 512 * usize::from(count)];
    device.status(&registers, &mut page);
    match read(&page, &registers) {
        Ok(reading) => reading.descriptors,
        Err(place) => panic!("9 at {}", place),
    }
}

/// "such a walk with any mix of page counts from 1 lists each matching element
/// exactly once, in order", as one request for nine pages does, which hold 143.
fn check_walk(device: &Device, feature: u16, counts: &[u16], start: u64) {
    let whole = listed(device, (feature, 9, start));
    // One that does not end would have more requests than elements.
    let requests: Vec<Asked> = walk(device, feature, counts, start).take(200).collect();
    let mut walked: Vec<Descriptor> = Vec::new();
    for (turn, &asked) in requests.iter().enumerate() {
        let last = walked.last();
        let due = last.map_or(start, |one| u64::from(one.identifier) + 1);
        assert_eq!(asked, (feature, counts[turn % counts.len()], due));
        walked.extend(listed(device, asked));
    }
    assert_eq!(walked, whole);
    if counts == [1] {
        let pages = (whole.len() + 14) / 15;
        assert_eq!(requests.len(), pages.max(1));
    }
}

#[test]
fn whole_walks() -> Result<(), Answer> {
    for device in walked_devices()? {
        for feature in [0x0000, 0x0100, 0x4000, 0x4100] {
            for start in [0, 2, 0x5001, 0xFFFF_FFF0, 0xFFFF_FFFF, 0x1_0000_0000_0000] {
                for counts in [&[1][..], &[1, 2], &[2, 1, 1], &[3], &[4, 1], &[9]] {
                    check_walk(&device, feature, counts, start);
                }
            }
        }
    }
    Ok(())
}

/// What device A says to G1 with these bits set as well, into a buffer of `length`.
fn g1_with(feature: u16, lba: u64, length: u16) -> Vec<String> {
    let feature = 0x4100 | feature;
    answers(&format!(
        "command unlocked 12 {:x} 1 {:x} {:x}\n",
        feature, lba, length
    ))
}

/// Request 2026-05: "FEATURE 13:12 or 7:0 not zero, or LBA 47:32 not zero", each bit by
/// itself; "4, .. before the buffer check".
#[test]
fn reserved_bits_refused() {
    let features = (0..8).chain(12..14).map(|bit| (1 << bit, 0));
    let starts = (32..48).map(|bit| (0, 1 << bit));
    for (feature, lba) in features.chain(starts) {
        for length in [0x200, 0x1FF, 0] {
            assert_eq!(g1_with(feature, lba, length), [REFUSED]);
        }
    }
}

/// "those above bit 47 are ignored", now as before.
#[test]
fn bits_above_47_ignored() {
    for bit in 48..64 {
        assert_eq!(g1_with(0, 1 << bit, 0x200), g1_with(0, 0, 0x200));
    }
}

/// "A laptop sent a start of 1_0000_0003h and showed an empty store as healthy."
#[test]
fn the_start_of_a_laptop() {
    let sent = answers("command unlocked 12 0 1 100000003 200\n");
    assert_eq!(sent, [REFUSED]);
    // "the reader treats such a request as refused": the empty page, read again.
    let empty = |call: &str| last_answer(&format!("length 200\n{}\n", call));
    assert_eq!(empty("next 0 1 3"), "end");
    assert_eq!(empty("read 0 1 100000003"), "9 at 0");
    assert_eq!(empty("next 0 1 100000003"), "9 at 0");
    assert_eq!(empty("toscsi 0 1 100000003 20"), "9 at 0");
}
