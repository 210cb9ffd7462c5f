//! Bodies at the edges of their rules, in both orders.

use second::body::Fault;
use second::check::{check, check_text};
use second::compose::Fields;
use second::kind::Kind;
use second::order::Order;

/// The number a body is refused with, 0 if it is well-formed.
fn number(kind: Kind, fields: impl Fn(Fields) -> Fields) -> u32 {
    let numbers = [Order::Big, Order::Little].map(|order| {
        let body = fields(Fields::new(order)).bytes();
        check(order, kind, &body).map_or_else(Fault::number, |_| 0)
    });
    assert_eq!(numbers[0], numbers[1], "{}", kind.name());
    numbers[0]
}

fn words(kind: Kind, values: &[u32]) -> u32 {
    number(kind, |f| f.words(values))
}

fn longs(kind: Kind, values: &[i64]) -> u32 {
    number(kind, |f| f.longs(values))
}

#[test]
fn data_sizes() {
    for kind in Kind::DATA {
        assert_eq!(words(kind, &[]), 11);
        assert_eq!(words(kind, &[1]), 11);
        assert_eq!(words(kind, &[1, 2]), 0);
        assert_eq!(words(kind, &[1, 2, 3, 4]), 0);
    }
    for kind in [Kind::Ssnc, Kind::Ssnr, Kind::Gsnc, Kind::Sfnr] {
        assert_eq!(words(kind, &[1, 2, 3]), 0);
    }
    for kind in [Kind::Sfnc, Kind::Gfnc] {
        assert_eq!(words(kind, &[1, 2, 3]), 11);
    }
}

#[test]
fn packing() {
    assert_eq!(words(Kind::Siqp, &[0]), 0);
    assert_eq!(words(Kind::Siqp, &[1]), 0);
    assert_eq!(words(Kind::Siqp, &[2]), 12);
    assert_eq!(words(Kind::Siqp, &[u32::MAX]), 12);
    assert_eq!(words(Kind::Siqp, &[0x0100_0000]), 12);
    assert_eq!(words(Kind::Siqp, &[]), 11);
    assert_eq!(words(Kind::Siqp, &[1, 1]), 11);
}

#[test]
fn frequencies_and_bandwidths() {
    assert_eq!(longs(Kind::Sr, &[1]), 0);
    assert_eq!(longs(Kind::Sr, &[0]), 12);
    assert_eq!(longs(Kind::Sr, &[-1]), 12);
    assert_eq!(longs(Kind::Sr, &[i64::MAX]), 0);
    assert_eq!(words(Kind::Sr, &[1]), 11);
    for kind in [Kind::Bw, Kind::Gcbw] {
        assert_eq!(longs(kind, &[0]), 0);
        assert_eq!(longs(kind, &[-1]), 12);
        assert_eq!(longs(kind, &[i64::MIN]), 12);
        assert_eq!(longs(kind, &[0, 0]), 11);
    }
    assert_eq!(longs(Kind::Bwof, &[0, i64::MIN]), 0);
    assert_eq!(longs(Kind::Bwof, &[-1, 0]), 12);
    assert_eq!(longs(Kind::Bwof, &[0]), 11);
    assert_eq!(longs(Kind::Cf, &[i64::MIN]), 0);
    assert_eq!(longs(Kind::Cf, &[]), 11);
}

#[test]
fn levels() {
    for kind in [Kind::Dbfs, Kind::Dbtg] {
        assert_eq!(words(kind, &[0x8000_0000]), 0);
        assert_eq!(words(kind, &[0xFF7F_FFFF]), 0);
        assert_eq!(words(kind, &[0x7F80_0000]), 12);
        assert_eq!(words(kind, &[0xFFC0_0000]), 12);
        assert_eq!(words(kind, &[0, 0]), 11);
    }
    assert_eq!(words(Kind::Ffs, &[1]), 0);
    assert_eq!(words(Kind::Ffs, &[0x7F7F_FFFF]), 0);
    assert_eq!(words(Kind::Ffs, &[0]), 12);
    assert_eq!(words(Kind::Ffs, &[0x8000_0000]), 12);
    assert_eq!(words(Kind::Ffs, &[0xBF80_0000]), 12);
    assert_eq!(words(Kind::Ffs, &[0x7F80_0000]), 12);
    assert_eq!(words(Kind::Ffs, &[0x7F80_0001]), 12);
}

#[test]
fn group_layouts() {
    const MINUS: u32 = u32::MAX;
    assert_eq!(words(Kind::Giqp, &[1, 0, 1, 0]), 0);
    assert_eq!(words(Kind::Giqp, &[3, 1, 3, 0, 1, i32::MAX as u32]), 0);
    let mut sixteen = vec![16, 1, 16];
    sixteen.extend(0..16);
    assert_eq!(words(Kind::Giqp, &sixteen), 0);
    // Too small for the counts, though n is wrong as well.
    assert_eq!(words(Kind::Giqp, &[0, 1]), 11);
    // n before the size and the values.
    assert_eq!(words(Kind::Giqp, &[0, 5, 5]), 13);
    assert_eq!(words(Kind::Giqp, &[17, 1, 1]), 13);
    assert_eq!(words(Kind::Giqp, &[MINUS, 1, 1, 0]), 13);
    // The size before the values.
    assert_eq!(words(Kind::Giqp, &[2, 5, 1, 0]), 11);
    assert_eq!(words(Kind::Giqp, &[2, 1, 1, 0, 1, 2]), 11);
    assert_eq!(words(Kind::Giqp, &[2, 2, 1, 0, 1]), 12);
    assert_eq!(words(Kind::Giqp, &[2, 1, 0, 0, 1]), 12);
    assert_eq!(words(Kind::Giqp, &[2, 1, 3, 0, 1]), 12);
    assert_eq!(words(Kind::Giqp, &[2, 1, 2, 0, MINUS]), 12);
}

#[test]
fn group_lists() {
    assert_eq!(number(Kind::Gcf, |f| f.int(2).longs(&[i64::MIN, 0])), 0);
    assert_eq!(number(Kind::Gcf, |f| f.int(2).longs(&[0])), 11);
    assert_eq!(number(Kind::Gcf, |f| f), 11);
    assert_eq!(number(Kind::Gcf, |f| f.int(0)), 13);
    assert_eq!(number(Kind::Gcf, |f| f.int(17).longs(&[0; 17])), 13);
    assert_eq!(number(Kind::Gcf, |f| f.int(16).longs(&[0; 16])), 0);
    assert_eq!(words(Kind::Grg, &[1, 0x8000_0000]), 0);
    assert_eq!(words(Kind::Grg, &[2, 0, 0x7FC0_0000]), 12);
    assert_eq!(words(Kind::Grg, &[3, 0, 0x7FC0_0000]), 11);
    assert_eq!(words(Kind::Grg, &[i32::MIN as u32, 0]), 13);
    assert_eq!(words(Kind::Grg, &[]), 11);
}

#[test]
fn file_marks_and_gaps() {
    assert_eq!(words(Kind::Sofh, &[u32::MAX]), 0);
    assert_eq!(words(Kind::Sofh, &[]), 11);
    for kind in [Kind::Eofh, Kind::Iqdc] {
        assert_eq!(words(kind, &[]), 0);
        assert_eq!(words(kind, &[0]), 11);
    }
}

#[test]
fn texts() {
    let text = |len: i32, rest: &[u8]| number(Kind::Text, |f| f.int(len).raw(rest));
    assert_eq!(number(Kind::Text, |f| f), 11);
    assert_eq!(text(0, b""), 0);
    assert_eq!(text(4, b"abcd"), 0);
    assert_eq!(text(5, b"abcde\0\0\0"), 0);
    assert_eq!(text(-1, b""), 11);
    assert_eq!(text(i32::MIN, b"abcd"), 11);
    assert_eq!(text(5, b"abcd"), 11);
    assert_eq!(text(i32::MAX, b"abcd"), 11);
    // More padding than the next multiple of four needs.
    assert_eq!(text(0, b"\0\0\0\0"), 11);
    assert_eq!(text(1, b"a\0\0\0\0\0\0\0"), 11);
    // Padding before the text.
    assert_eq!(text(1, b"\xFF\0\0\x01"), 14);
    assert_eq!(text(1, b"\xFF\0\0\0"), 15);
    assert_eq!(text(2, b"\xC0\x80\0\0"), 15);
    assert_eq!(text(3, b"\xED\xA0\x80\0"), 15);
    assert_eq!(text(4, b"\xF4\x90\x80\x80"), 15);
    assert_eq!(text(4, b"\xF4\x8F\xBF\xBF"), 0);
    // A zero byte inside is a character like others.
    assert_eq!(text(2, b"\0\0\0\0"), 0);
    assert_eq!(check_text(Order::Big, b"\0\0\0\x02hi\0\0"), Ok("hi"));
}
