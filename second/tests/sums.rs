//! The sums of dBTG and the gains, seen through the dump.

use second::compose::Composer;
use second::dump::dump;
use second::kind::Kind;
use second::order::Order;

/// For each ready chunk its sums, with their channels, joined with commas; the
/// same in both orders.
fn sums(fill: impl Fn(&mut Composer)) -> Vec<String> {
    let [big, little] = [Order::Big, Order::Little].map(|order| {
        let mut stream = Composer::new(order);
        fill(&mut stream);
        let text = dump(stream.bytes());
        let chunks = text.split("  mark ").skip(1);
        chunks.map(sums_of).collect::<Vec<_>>()
    });
    assert_eq!(big, little);
    big
}

fn sums_of(chunk: &str) -> String {
    let lines = chunk.lines();
    let sums: Vec<&str> = lines.filter_map(|l| l.strip_prefix("  sum ")).collect();
    sums.join(", ")
}

/// The sums of a dBTG and gains that are given, and shown, by their patterns.
fn added(total: u32, gains: &[u32]) -> String {
    let gains: Vec<f32> = gains.iter().map(|gain| f32::from_bits(*gain)).collect();
    let shown = sums(|stream| {
        stream
            .long(Kind::Sr, 1)
            .pattern(Kind::Dbtg, total)
            .group_gains(&gains)
            .shorts(Kind::Ssnr, 0, &[]);
    });
    shown.join("; ")
}

#[test]
fn both_parts_are_needed() {
    let shown = sums(|stream| {
        stream
            .long(Kind::Sr, 1)
            .level(Kind::Dbtg, 20.0)
            .shorts(Kind::Ssnr, 0, &[])
            .group_gains(&[1.5, -0.0])
            .shorts(Kind::Ssnr, 0, &[]);
    });
    assert_eq!(shown, ["", "0 41AC0000, 1 41A00000"]);
    let shown = sums(|stream| {
        stream
            .long(Kind::Sr, 1)
            .group_gains(&[1.5, -0.0])
            .shorts(Kind::Ssnr, 0, &[])
            .level(Kind::Dbtg, 20.0)
            .shorts(Kind::Ssnr, 0, &[]);
    });
    assert_eq!(shown, ["", "0 41AC0000, 1 41A00000"]);
}

/// 20 + 1 = 21, 20 + 2 = 22, 20 + 3 = 23; 4 + 1 = 5, 4 + 2 = 6, 4 + 3 = 7; and
/// 4 + 8 = 12, with nothing left of the second and the third channel.
#[test]
fn either_part_is_replaced() {
    let shown = sums(|stream| {
        stream
            .long(Kind::Sr, 1)
            .level(Kind::Dbtg, 20.0)
            .group_gains(&[1.0, 2.0, 3.0])
            .shorts(Kind::Ssnr, 0, &[])
            .level(Kind::Dbtg, 4.0)
            .shorts(Kind::Ssnr, 0, &[])
            .group_gains(&[8.0])
            .shorts(Kind::Ssnr, 0, &[])
            .level(Kind::Dbfs, 9.0)
            .group_frequencies(&[9, 9])
            .shorts(Kind::Ssnr, 0, &[]);
    });
    assert_eq!(
        shown,
        [
            "0 41A80000, 1 41B00000, 2 41B80000",
            "0 40A00000, 1 40C00000, 2 40E00000",
            "0 41400000",
            "0 41400000",
        ]
    );
}

#[test]
fn either_part_is_removed() {
    let shown = sums(|stream| {
        stream
            .long(Kind::Sr, 1)
            .level(Kind::Dbtg, 20.0)
            .group_gains(&[1.5])
            .shorts(Kind::Ssnr, 0, &[])
            .level(Kind::Dbtg, f32::NAN)
            .shorts(Kind::Ssnr, 0, &[])
            .level(Kind::Dbtg, 20.0)
            .shorts(Kind::Ssnr, 0, &[])
            .empty(Kind::Grg)
            .shorts(Kind::Ssnr, 0, &[])
            .level(Kind::Dbtg, 20.0)
            .shorts(Kind::Ssnr, 0, &[])
            .group_gains(&[1.5])
            .empty(Kind::Gcf)
            .empty(Kind::Giqp)
            .empty(Kind::Dbfs)
            .shorts(Kind::Ssnr, 0, &[]);
    });
    assert_eq!(
        shown,
        ["0 41AC0000", "", "0 41AC0000", "", "", "0 41AC0000"]
    );
}

#[test]
fn regained_step_empties_both_parts() {
    let shown = sums(|stream| {
        stream
            .long(Kind::Sr, 1)
            .level(Kind::Dbtg, 20.0)
            .group_gains(&[1.5])
            .shorts(Kind::Ssnr, 0, &[])
            .raw(&[0])
            .long(Kind::Sr, 1)
            .shorts(Kind::Ssnr, 0, &[])
            .level(Kind::Dbtg, 20.0)
            .shorts(Kind::Ssnr, 0, &[])
            .raw(&[0])
            .long(Kind::Sr, 1)
            .group_gains(&[1.5])
            .shorts(Kind::Ssnr, 0, &[])
            .level(Kind::Dbtg, 20.0)
            .shorts(Kind::Ssnr, 0, &[]);
    });
    assert_eq!(shown, ["0 41AC0000", "", "", "", "0 41AC0000"]);
}

#[test]
fn a_group_of_another_count_hides_them() {
    let shown = sums(|stream| {
        stream
            .long(Kind::Sr, 1)
            .group_packing(1, 2, &[0, 1])
            .level(Kind::Dbtg, 20.0)
            .group_gains(&[1.5])
            .shorts(Kind::Gsnc, 0, &[1, 2, 3, 4])
            .shorts(Kind::Ssnr, 0, &[])
            .shorts(Kind::Gsnc, 0, &[])
            .group_packing(1, 1, &[0])
            .shorts(Kind::Gsnc, 0, &[])
            .group_gains(&[1.5, -0.0])
            .shorts(Kind::Gsnc, 0, &[])
            .group_packing(1, 2, &[0, 1])
            .shorts(Kind::Gsnc, 0, &[1, 2, 3, 4]);
    });
    assert_eq!(
        shown,
        [
            "",
            "0 41AC0000",
            "",
            "0 41AC0000",
            "",
            "0 41AC0000, 1 41A00000"
        ]
    );
}

/// 1 + 1 = 2 in each channel but the last, where 1 - 1 = 0.
#[test]
fn sixteen_channels() {
    let mut gains = [0x3F80_0000; 16];
    gains[15] = 0xBF80_0000;
    assert_eq!(
        added(0x3F80_0000, &gains),
        "0 40000000, 1 40000000, 2 40000000, 3 40000000, \
         4 40000000, 5 40000000, 6 40000000, 7 40000000, \
         8 40000000, 9 40000000, 10 40000000, 11 40000000, \
         12 40000000, 13 40000000, 14 40000000, 15 00000000"
    );
}

/// The largest float is 2^128 - 2^104. With 2^103 the sum is in the middle
/// between it and 2^128, and 2^128 would be the even one; with any less the
/// largest stays.
#[test]
fn a_sum_that_is_not_finite_is_absent() {
    let (largest, least) = (0x7F7F_FFFF, 0xFF7F_FFFF);
    assert_eq!(added(largest, &[largest]), "");
    assert_eq!(added(least, &[least]), "");
    assert_eq!(
        added(largest, &[0x4000_0000, largest, least, 0x0000_0000]),
        "0 7F7FFFFF, 2 00000000, 3 7F7FFFFF"
    );
    assert_eq!(added(largest, &[0x7300_0000, 0x72FF_FFFF]), "1 7F7FFFFF");
    assert_eq!(added(0xF300_0000, &[least, 0xFF7F_FFFE]), "1 FF7FFFFE");
}

/// 0 of 20 - 20, of -20 + 20, and of zeros unless both are -0.
#[test]
fn zeros() {
    assert_eq!(added(0x41A0_0000, &[0xC1A0_0000]), "0 00000000");
    assert_eq!(added(0xC1A0_0000, &[0x41A0_0000]), "0 00000000");
    assert_eq!(
        added(0x8000_0000, &[0x8000_0000, 0x0000_0000]),
        "0 80000000, 1 00000000"
    );
    assert_eq!(
        added(0x0000_0000, &[0x8000_0000, 0x0000_0000]),
        "0 00000000, 1 00000000"
    );
    // A zero of either sign leaves any other part as it is.
    assert_eq!(
        added(0x8000_0000, &[0x3FC0_0000, 0xBFC0_0000]),
        "0 3FC00000, 1 BFC00000"
    );
}

/// Subnormals are whole numbers of the least one, and so is the smallest normal
/// float, 2^23 of it.
#[test]
fn subnormals() {
    assert_eq!(
        added(
            0x0000_0001,
            &[0x0000_0001, 0x8000_0001, 0x007F_FFFF, 0x0000_0000]
        ),
        "0 00000002, 1 00000000, 2 00800000, 3 00000001"
    );
    assert_eq!(
        added(0x0080_0000, &[0x8000_0001, 0x8080_0001]),
        "0 007FFFFF, 1 80000001"
    );
}

/// From 2^24 on floats are 2 apart. With 1 and 3 the sum is in the middle of two
/// of them, and the even one of the two is taken; with a little more than 1 it
/// is above the middle, and with a little less below it.
#[test]
fn rounded_once_and_ties_to_even() {
    assert_eq!(
        added(
            0x4B80_0000,
            &[
                0x3F80_0000,
                0x4040_0000,
                0x3F80_0001,
                0x3F7F_FFFF,
                0x4000_0000
            ]
        ),
        "0 4B800000, 1 4B800002, 2 4B800001, 3 4B800000, 4 4B800001"
    );
    assert_eq!(added(0x4B80_0001, &[0xBF80_0000]), "0 4B800000");
    // What is left of 1 beside a float so large is nothing.
    assert_eq!(added(0x3F80_0000, &[0x6000_0000]), "0 60000000");
}
