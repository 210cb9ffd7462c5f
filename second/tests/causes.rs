//! Why bytes were skipped, from headers written out: sizes about the limit and
//! about the multiples of 4, met in step and met searching, in both orders.

use second::compose::Composer;
use second::dump::dump;
use second::kind::Kind;
use second::order::Order;

/// A header of this size with nothing after it, behind an IQDC chunk or at the
/// start. What is dumped from the header on.
fn dumped(order: Order, size: u32, in_step: bool) -> String {
    let mut stream = Composer::new(order);
    if in_step {
        stream.empty(Kind::Iqdc);
    }
    let at = stream.len();
    stream.header(Kind::Ssnc.code(), size);
    let text = dump(stream.bytes());
    let from = text.find(&format!("skip {at} ")).or(text.find("cut "));
    text[from.unwrap()..].to_owned()
}

#[test]
fn sizes_about_the_limits() {
    for (size, cause) in [
        (69_633, "large"),
        (69_634, "large"),
        (69_636, "large"),
        (0xFFFF_FFFF, "large"),
        (0xFFFF_FFFC, "large"),
        (0x8000_0000, "large"),
        (69_631, "uneven"),
        (69_630, "uneven"),
        (6, "uneven"),
        (1, "uneven"),
    ] {
        for order in [Order::Big, Order::Little] {
            let in_step = format!("skip 12 12\n  cause {cause}\nend 2\n");
            assert_eq!(dumped(order, size, true), in_step);
            let searching = "skip 0 12\n  cause searching\nend 1\n";
            assert_eq!(dumped(order, size, false), searching);
        }
    }
}

#[test]
fn a_good_size_is_no_cause() {
    for size in [69_632, 4] {
        for order in [Order::Big, Order::Little] {
            assert_eq!(dumped(order, size, true), "cut 12 12\nend 2\n");
            assert_eq!(dumped(order, size, false), "cut 0 12\nend 1\n");
        }
    }
}

/// The bytes that are skipped need not hold what the cause names: of a bad
/// header before a chunk they may be the sync word alone.
#[test]
fn a_header_that_ends_in_a_chunk() {
    let mut stream = Composer::new(Order::Little);
    stream.empty(Kind::Iqdc);
    let sync = Order::Little.sync();
    stream.raw(&sync).empty(Kind::Iqdc);
    let expected = "pxgf little 28\n\
        chunk 0 IQDC 0 ok\n\
        skip 12 4\n\
        \x20 cause large\n\
        chunk 16 IQDC 0 ok\n\
        end 3\n";
    assert_eq!(dump(stream.bytes()), expected);
}
