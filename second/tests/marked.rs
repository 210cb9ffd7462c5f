//! The twelve marked cases, in the big order, from bytes written out.

mod common;

use common::hex;
use second::body::Fault;
use second::kind::Kind;
use second::{Item, Order, Reader, Verdict};

const IQDC: &str = "A1B2C3D4 49514443 00000000";

/// The items of a stream in short words.
fn items(digits: &str) -> Vec<String> {
    let stream = hex(digits);
    Reader::new(Order::Big, &stream)
        .map(|item| match item {
            Item::Skipped { place, len, cause } => {
                format!("skipped {place} {len} {}", cause.word())
            }
            Item::Unfinished { place, len } => format!("unfinished {place} {len}"),
            Item::Chunk {
                frame,
                kind,
                verdict,
            } => {
                let verdict = match verdict {
                    Verdict::Unknown => "unknown".to_owned(),
                    Verdict::Plain(_) => "good".to_owned(),
                    Verdict::Ready(_) => "ready".to_owned(),
                    Verdict::Malformed(fault) => fault.number().to_string(),
                    Verdict::NoCover => "16".to_owned(),
                    Verdict::Waits { lack, .. } => lack.number().to_string(),
                };
                format!("{} {} {verdict}", kind.map_or("?", Kind::name), frame.place)
            }
        })
        .collect()
}

#[test]
fn case_1_empty() {
    assert!(items("").is_empty());
}

#[test]
fn case_2_three_bytes() {
    assert_eq!(items("A1B2C3"), ["unfinished 0 3"]);
    let in_step = items(&format!("{IQDC} A1B2C3"));
    assert_eq!(in_step, ["IQDC 0 good", "unfinished 12 3"]);
}

#[test]
fn case_3_one_chunk() {
    assert_eq!(items(IQDC), ["IQDC 0 good"]);
}

#[test]
fn case_4_eight_bytes() {
    assert_eq!(items("A1B2C3D4 49514443"), ["unfinished 0 8"]);
}

#[test]
fn case_5_largest_size() {
    assert_eq!(items("A1B2C3D4 49514443 00011000"), ["unfinished 0 12"]);
}

#[test]
fn case_6_one_word_too_large() {
    assert_eq!(
        items("A1B2C3D4 49514443 00011004"),
        ["skipped 0 12 searching"]
    );
}

#[test]
fn case_7_size_six() {
    assert_eq!(
        items("A1B2C3D4 49514443 00000006"),
        ["skipped 0 12 searching"]
    );
}

#[test]
fn case_8_two_bytes_before() {
    assert_eq!(
        items(&format!("A1B2 {IQDC}")),
        ["skipped 0 2 searching", "IQDC 2 good"]
    );
}

#[test]
fn case_9_sync_before() {
    assert_eq!(
        items(&format!("A1B2C3D4 {IQDC}")),
        ["skipped 0 4 searching", "IQDC 4 good"]
    );
}

/// The bytes of cases 6, 7, 8 and 9 behind a chunk, which puts the reader in
/// step. In case 9 the type of the chunk stands where the size of the header
/// before it is looked for.
#[test]
fn cases_that_skip_in_step() {
    for (bytes, skipped) in [
        ("A1B2C3D4 49514443 00011004", "skipped 12 12 large"),
        ("A1B2C3D4 49514443 00000006", "skipped 12 12 uneven"),
        (&format!("A1B2 {IQDC}"), "skipped 12 2 sync"),
        (&format!("A1B2C3D4 {IQDC}"), "skipped 12 4 large"),
    ] {
        let found = items(&format!("{IQDC} {bytes}"));
        assert_eq!(found[..2], ["IQDC 0 good", skipped]);
    }
}

#[test]
fn case_10_packing_of_two() {
    assert_eq!(items("A1B2C3D4 53495150 00000004 00000002"), ["SIQP 0 12"]);
}

#[test]
fn case_11_text_padding() {
    let text = "A1B2C3D4 54455854 00000008 00000001 410000";
    assert_eq!(items(&format!("{text}00")), ["TEXT 0 good"]);
    assert_eq!(items(&format!("{text}01")), ["TEXT 0 14"]);
    assert_eq!(Fault::Padding.number(), 14);
}

#[test]
fn case_12_cover() {
    let rate = "A1B2C3D4 53525F5F 00000008 0000000000000001";
    let layout = "A1B2C3D4 47495150 00000014 00000002 00000001 00000001 00000000";
    let pairs = "A1B2C3D4 47534E43 00000018 0000000000000000 00010002 00030004 00050006 00070008";
    // 20 bytes of SR__, 32 of GIQP, then the chunk.
    assert_eq!(
        items(&format!("{rate} {layout} 00000002 {pairs}")),
        ["SR__ 0 good", "GIQP 20 good", "GSNC 52 ready"]
    );
    assert_eq!(
        items(&format!("{rate} {layout} 00000001 {pairs}")),
        ["SR__ 0 good", "GIQP 20 good", "GSNC 52 16"]
    );
}
