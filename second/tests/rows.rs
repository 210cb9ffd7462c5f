//! How many items a stream may have: every short stream over a few bytes, every
//! stream of a few pieces, and streams with as many items as there can be.

use second::list::list;
use second::rows::{fullest, rows_for};
use second::{Order, Reader};

const ORDERS: [Order; 2] = [Order::Big, Order::Little];

/// A size that is good and not zero, and in its bytes its only byte that isn't
/// zero.
const SIZE: u8 = 4;

/// The longest streams made byte by byte, and the most pieces of the others.
const BYTES: usize = 9;
const PIECES: usize = 10;

fn count(order: Order, stream: &[u8]) -> usize {
    Reader::new(order, stream).count()
}

fn rows(bytes: usize) -> usize {
    rows_for(bytes as u64) as usize
}

/// The most items of a stream of so many bytes: two for each thirteen bytes,
/// and one more for each byte that is left, up to two.
fn most(bytes: usize) -> usize {
    bytes / 13 * 2 + (bytes % 13).min(2)
}

/// Calls `check` with every stream of up to so many of these pieces that
/// begins with the pieces in `stream`.
fn each(pieces: &[Vec<u8>], left: usize, stream: &mut Vec<u8>, check: &mut impl FnMut(&[u8])) {
    check(stream);
    if left == 0 {
        return;
    }
    for piece in pieces {
        stream.extend(piece);
        each(pieces, left - 1, stream, check);
        stream.truncate(stream.len() - piece.len());
    }
}

/// The largest count of items that was met at each length, none of them being
/// over the bound.
fn largest(order: Order, pieces: &[Vec<u8>], left: usize) -> Vec<usize> {
    let mut largest = Vec::new();
    each(pieces, left, &mut Vec::new(), &mut |stream| {
        let items = count(order, stream);
        assert!(
            items <= rows(stream.len()),
            "{items} items in {} {stream:02X?}",
            order.name()
        );
        if largest.len() <= stream.len() {
            largest.resize(stream.len() + 1, 0);
        }
        largest[stream.len()] = items.max(largest[stream.len()]);
    });
    largest
}

#[test]
fn every_short_stream() {
    for order in ORDERS {
        let sync = order.sync();
        let bytes = sync.into_iter().chain([0, SIZE]);
        let pieces: Vec<_> = bytes.map(|byte| vec![byte]).collect();
        let largest = largest(order, &pieces, BYTES);
        assert_eq!(largest, (0..=BYTES).map(most).collect::<Vec<_>>());
        assert_eq!(largest[2], rows(2));
    }
}

#[test]
fn every_stream_of_few_pieces() {
    for order in ORDERS {
        let sync = order.sync();
        let size = order.put_u32(SIZE.into()).to_vec();
        let pieces = [sync.to_vec(), size, vec![0; 4], vec![0], vec![sync[0]]];
        let largest = largest(order, &pieces, PIECES);
        for (bytes, &items) in largest.iter().enumerate().take(29) {
            assert_eq!(items, most(bytes), "of {bytes} bytes");
        }
        for bytes in [2, 12, 15, 25, 28] {
            assert_eq!(largest[bytes], rows(bytes));
        }
    }
}

#[test]
fn streams_with_as_many_items_as_there_can_be() {
    for order in ORDERS {
        for bytes in (0..300).chain([65_535, 65_536]) {
            let stream = fullest(order, bytes);
            assert_eq!(count(order, &stream), most(bytes));
            if bytes % 13 >= 2 {
                assert_eq!(count(order, &stream), rows(bytes));
            }
        }
    }
}

#[test]
fn the_count_of_a_listing() {
    let stream = fullest(Order::Big, 15);
    assert_eq!(
        list(&stream),
        "pxgf big 15\n\
        skip 0 1\n\
        chunk 1 00000000 0 unknown\n\
        skip 13 1\n\
        cut 14 1\n\
        end 4\n"
    );
}

#[test]
fn rows_of_any_count_of_bytes() {
    let known = [
        (0, 2),
        (12, 2),
        (13, 4),
        (65_536, 10_084),
        (u64::MAX, 2_837_960_626_724_546_404),
    ];
    for (bytes, rows) in known {
        assert_eq!(rows_for(bytes), rows);
    }
}
