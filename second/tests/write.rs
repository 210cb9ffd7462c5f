//! The writer.

mod common;

use common::hex;
use second::kind::Kind;
use second::make::make;
use second::order::Order;
use second::write::{write_record, WriteRefusal};
use second::{find_order, Item, Reader, Verdict};

/// The size written, or the number refused with; a refused record adds
/// nothing.
fn verdict(order: Order, code: u32, digits: &str) -> Result<usize, u32> {
    let mut out = vec![7];
    let answer = write_record(order, code, &hex(digits), &mut out);
    let grown = out.len() - 1;
    assert_eq!(grown, answer.map_or(0, |size| 12 + size));
    answer.map_err(WriteRefusal::number)
}

#[test]
fn verdicts() {
    let big = |kind: Kind, digits| verdict(Order::Big, kind.code(), digits);
    assert_eq!(big(Kind::Iqdc, ""), Ok(0));
    assert_eq!(big(Kind::Iqdc, "00000000"), Err(11));
    assert_eq!(big(Kind::Siqp, "00000001"), Ok(4));
    assert_eq!(big(Kind::Siqp, "00000002"), Err(12));
    // The size is judged before the kind.
    assert_eq!(big(Kind::Siqp, "000001"), Err(32));
    assert_eq!(big(Kind::Gcf, "00000000"), Err(13));
    assert_eq!(big(Kind::Text, "00000001 41000000"), Ok(8));
    assert_eq!(big(Kind::Text, "00000001 41000001"), Err(14));
    assert_eq!(big(Kind::Text, "00000001 FF000000"), Err(15));
    // No cover is asked for, and no state.
    assert_eq!(big(Kind::Gsnc, "0000000000000000 00010002"), Ok(12));
    let siqp = Kind::Siqp.code();
    assert_eq!(verdict(Order::Little, siqp, "01000000"), Ok(4));
    assert_eq!(verdict(Order::Little, siqp, "00000001"), Err(12));
    // A type that no kind has.
    assert_eq!(verdict(Order::Big, 0x4142_4344, "010203"), Err(32));
    assert_eq!(verdict(Order::Big, 0x4142_4344, "01020304"), Ok(4));
    assert_eq!(verdict(Order::Big, 0xA1B2_C3D4, "A1B2C3D4"), Ok(4));
}

#[test]
fn largest_body() {
    let mut out = Vec::new();
    let body = vec![0; 69_636];
    let ssnc = Kind::Ssnc.code();
    assert_eq!(
        write_record(Order::Big, ssnc, &body, &mut out),
        Err(WriteRefusal::Size)
    );
    assert!(out.is_empty());
    assert_eq!(
        write_record(Order::Big, ssnc, &body[4..], &mut out),
        Ok(69_632)
    );
    assert_eq!(out.len(), 69_644);
}

#[test]
fn bytes_of_both_orders() {
    let mut out = Vec::new();
    write_record(Order::Big, Kind::Siqp.code(), &[0, 0, 0, 1], &mut out).unwrap();
    write_record(Order::Little, Kind::Iqdc.code(), &[], &mut out).unwrap();
    assert_eq!(
        out,
        hex("A1B2C3D4 53495150 00000004 00000001 D4C3B2A1 43445149 00000000")
    );
}

/// Chunks that no body rule refuses, written again in a row, are read as the
/// same records.
#[test]
fn what_is_written_is_read_back() {
    for seed in 0..100 {
        let stream = make(seed);
        let Some(order) = find_order(&stream) else {
            continue;
        };
        let mut records = Vec::new();
        let mut out = Vec::new();
        for item in Reader::new(order, &stream) {
            let Item::Chunk { frame, verdict, .. } = item else {
                continue;
            };
            let body = frame.body(&stream);
            let written = write_record(order, frame.code, body, &mut out);
            match verdict {
                Verdict::Malformed(fault) => {
                    assert_eq!(written, Err(WriteRefusal::Malformed(fault)));
                }
                _ => {
                    assert_eq!(written, Ok(body.len()));
                    records.push((frame.code, body));
                }
            }
        }
        let read: Vec<(u32, &[u8])> = Reader::new(order, &out)
            .map(|item| match item {
                Item::Chunk { frame, .. } => (frame.code, frame.body(&out)),
                other => panic!("{other:?}"),
            })
            .collect();
        assert_eq!(read, records, "seed {seed}");
    }
}
