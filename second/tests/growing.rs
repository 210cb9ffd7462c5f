//! Streams that grow: what a beginning gives stays when more bytes come, and
//! the last bytes are unfinished where a sync word may begin with them.

mod common;

use common::hex;
use second::compose::Composer;
use second::frame::{look, Look};
use second::kind::Kind;
use second::list::{item_line, list};
use second::make::make;
use second::recordings;
use second::{find_order, search, Bookmark, Cause, Item, Order, Reader};

const ORDERS: [Order; 2] = [Order::Big, Order::Little];

/// The most bytes of a made stream, and how many are taken.
const MOST: usize = 400;
const MADE: usize = 60;

/// The sample recordings, chunks inside chunks, and some made streams that are
/// short.
fn streams() -> Vec<Vec<u8>> {
    let samples = recordings::all().into_iter().map(|(_, bytes)| bytes);
    samples.chain(ORDERS.map(nested)).chain(made()).collect()
}

/// A chunk whose body holds whole chunks, which are found only where its own
/// header is bad.
fn nested(order: Order) -> Vec<u8> {
    let mut inner = Composer::new(order);
    inner.long(Kind::Sr, 5).shorts(Kind::Ssnr, 1, &[2, 3]);
    let mut stream = Composer::new(order);
    stream
        .chunk_of(7, inner.bytes())
        .header(7, 6)
        .raw(inner.bytes())
        .chunk_of(7, inner.bytes());
    stream.into_bytes()
}

fn made() -> impl Iterator<Item = Vec<u8>> {
    (1..).map(make).filter(|s| s.len() <= MOST).take(MADE)
}

/// An item, and all that the reader knows behind it.
type Step<'a> = (Item<'a>, Bookmark);

fn steps(order: Order, stream: &[u8]) -> Vec<Step<'_>> {
    let mut reader = Reader::new(order, stream);
    let mut steps = Vec::new();
    while let Some(item) = reader.next() {
        steps.push((item, reader.bookmark()));
    }
    steps
}

/// Hands over the steps of every beginning of every stream, in both orders,
/// with those of the whole.
fn each_beginning(check: impl Fn(&[Step], &[Step])) {
    for stream in streams() {
        for order in ORDERS {
            let whole = steps(order, &stream);
            for len in 0..=stream.len() {
                check(&steps(order, &stream[..len]), &whole);
            }
        }
    }
}

#[test]
fn all_up_to_the_last_chunk_stays() {
    each_beginning(|part, whole| {
        let is_chunk = |(item, _): &Step| matches!(item, Item::Chunk { .. });
        let kept = part.iter().rposition(is_chunk).map_or(0, |last| last + 1);
        assert!(whole.starts_with(&part[..kept]));
    });
}

/// Whether both are skipped, from the same place and for the same cause, and
/// the second is no shorter.
fn no_shorter(before: &Item, after: &Item) -> bool {
    match (before, after) {
        (
            Item::Skipped { place, len, cause },
            Item::Skipped {
                place: same_place,
                len: longer,
                cause: same_cause,
            },
        ) => place == same_place && cause == same_cause && len <= longer,
        _ => false,
    }
}

#[test]
fn what_was_skipped_stays_skipped() {
    each_beginning(|part, whole| {
        let skipped = |(item, _): &&Step| matches!(item, Item::Skipped { .. });
        for (before, _) in part.iter().filter(skipped) {
            assert!(whole.iter().any(|(after, _)| no_shorter(before, after)));
        }
    });
}

#[test]
fn the_first_other_item_was_unfinished_or_is_longer() {
    each_beginning(|part, whole| {
        let mut pairs = part.iter().zip(whole);
        match pairs.find(|((before, _), (after, _))| before != after) {
            None => assert!(part.len() <= whole.len()),
            Some(((Item::Unfinished { .. }, _), _)) => {}
            Some(((before, _), (after, _))) => assert!(no_shorter(before, after)),
        }
    });
}

#[test]
fn an_order_once_found_stays() {
    for stream in streams() {
        let whole = find_order(&stream);
        for len in 0..=stream.len() {
            let part = find_order(&stream[..len]);
            assert!(part.is_none() || part == whole);
        }
    }
}

/// Adds an item, or joins it to the one before if both are pieces of one
/// skipped stretch.
fn add<'a>(items: &mut Vec<Item<'a>>, item: Item<'a>) {
    match (items.last_mut(), &item) {
        (Some(Item::Skipped { len, .. }), Item::Skipped { len: more, .. }) => *len += more,
        _ => items.push(item),
    }
}

/// Adds the items of a part from a bookmark on. What is unfinished is left for
/// the next part, which goes on from the bookmark that is given back.
fn read_part<'a>(
    order: Order,
    part: &'a [u8],
    from: &Bookmark,
    items: &mut Vec<Item<'a>>,
) -> Bookmark {
    let mut reader = Reader::at(order, part, from);
    loop {
        let before = reader.bookmark();
        match reader.next() {
            None | Some(Item::Unfinished { .. }) => return before,
            Some(item) => add(items, item),
        }
    }
}

/// Reads a stream in three parts, cut at each place and then at those that
/// `later` gives for it. Together the parts give the items of the whole, with
/// the verdicts and all that data chunks show.
fn three_parts<P: Iterator<Item = usize>>(order: Order, stream: &[u8], later: impl Fn(usize) -> P) {
    let whole: Vec<Item> = Reader::new(order, stream).collect();
    for first in 0..=stream.len() {
        let mut begun = Vec::new();
        let start = Bookmark::default();
        let middle = read_part(order, &stream[..first], &start, &mut begun);
        for then in later(first).filter(|place| *place <= stream.len()) {
            let mut items = begun.clone();
            let last = read_part(order, &stream[..then], &middle, &mut items);
            for item in Reader::at(order, stream, &last) {
                add(&mut items, item);
            }
            assert!(items == whole, "cut at {first} and {then}");
        }
    }
}

#[test]
fn sample_recordings_in_three_parts() {
    for (_, stream) in recordings::all() {
        let order = find_order(&stream).expect("a recording");
        three_parts(order, &stream, |first| first..=stream.len());
    }
}

#[test]
fn made_streams_in_three_parts() {
    let distances = [0, 1, 2, 3, 4, 7, 11, 12, 13, 20, 64, 100];
    for stream in made() {
        for order in ORDERS {
            three_parts(order, &stream, |first| {
                distances.iter().map(move |distance| first + distance)
            });
        }
    }
}

/// The lines of a stream's items, read in this order.
fn lines(order: Order, stream: &[u8]) -> String {
    let mut text = String::new();
    for item in Reader::new(order, stream) {
        item_line(&mut text, &item);
    }
    text
}

/// Hands over an empty stream of each order and each beginning of its sync word
/// that isn't whole.
fn each_tail(check: impl Fn(Composer, &[u8])) {
    for order in ORDERS {
        for len in 1..4 {
            check(Composer::new(order), &order.sync()[..len]);
        }
    }
}

#[test]
fn a_tail_alone() {
    each_tail(|mut stream, tail| {
        stream.raw(tail);
        let (order, bytes) = (stream.order(), stream.bytes());
        assert_eq!(lines(order, bytes), format!("cut 0 {}\n", tail.len()));
        // The order needs the whole word.
        assert_eq!(list(bytes), "none\n");
    });
}

#[test]
fn a_tail_behind_a_chunk() {
    each_tail(|mut stream, tail| {
        stream.long(Kind::Sr, 5).raw(tail);
        let (order, bytes) = (stream.order(), stream.bytes());
        let expected = format!("chunk 0 SR__ 8 ok\ncut 20 {}\n", tail.len());
        assert_eq!(lines(order, bytes), expected);
        // The reader stays in step, with what it knew.
        let steps = steps(order, bytes);
        let (before, after) = (steps[0].1, steps[1].1);
        assert!(before.in_step && before.state.sample_rate == Some(5));
        let place = bytes.len();
        assert_eq!(after, Bookmark { place, ..before });
    });
}

#[test]
fn a_tail_behind_skipped_bytes() {
    each_tail(|mut stream, tail| {
        stream.raw(&[0, 7]).raw(tail);
        let (order, bytes) = (stream.order(), stream.bytes());
        let expected = format!("skip 0 2\ncut 2 {}\n", tail.len());
        assert_eq!(lines(order, bytes), expected);
        assert!(steps(order, bytes).iter().all(|(_, after)| !after.in_step));
        // The search stops at the tail, and finds nothing inside it.
        assert_eq!(search(order, bytes, 0), Some(2));
        assert_eq!(search(order, bytes, 2), Some(2));
        assert_eq!(search(order, bytes, 3), None);
    });
}

#[test]
fn a_tail_behind_a_bad_header() {
    each_tail(|mut stream, tail| {
        stream
            .empty(Kind::Iqdc)
            .header(Kind::Cf.code(), 6)
            .raw(tail);
        let (order, bytes) = (stream.order(), stream.bytes());
        let expected = format!("chunk 0 IQDC 0 ok\nskip 12 12\ncut 24 {}\n", tail.len());
        assert_eq!(lines(order, bytes), expected);
        let skipped = Item::Skipped {
            place: 12,
            len: 12,
            cause: Cause::SizePartWord,
        };
        assert_eq!(steps(order, bytes)[1].0, skipped);
    });
}

/// A header's own size may end in a tail, and is then no good size: 161 and
/// 41,394 in the big order, and over the limit otherwise.
#[test]
fn a_tail_inside_a_bad_header() {
    each_tail(|mut stream, tail| {
        let place = 12 - tail.len();
        stream.header(Kind::Cf.code(), 0).cut(place).raw(tail);
        let expected = format!("skip 0 {place}\ncut {place} {}\n", tail.len());
        assert_eq!(lines(stream.order(), stream.bytes()), expected);
    });
}

#[test]
fn a_tail_of_the_other_order_is_skipped() {
    each_tail(|stream, tail| {
        let order = stream.order().other();
        assert_eq!(lines(order, tail), format!("skip 0 {}\n", tail.len()));
    });
    // Its whole word ends in the byte that this order's begins with.
    for order in ORDERS {
        let word = order.other().sync();
        assert_eq!(lines(order, &word), "skip 0 3\ncut 3 1\n");
    }
}

#[test]
fn a_tail_inside_a_chunk_is_none() {
    each_tail(|mut stream, tail| {
        let mut body = vec![0; 8 - tail.len()];
        body.extend(tail);
        stream.chunk_of(7, &body);
        let order = stream.order();
        assert_eq!(lines(order, stream.bytes()), "chunk 0 00000007 8 unknown\n");
        // Nor in a chunk that is unfinished itself, in its body or its header.
        let mut longer = Composer::new(order);
        longer.header(7, 12).raw(&body);
        assert_eq!(lines(order, longer.bytes()), "cut 0 20\n");
        longer.cut(4).raw(tail);
        let expected = format!("cut 0 {}\n", 4 + tail.len());
        assert_eq!(lines(order, longer.bytes()), expected);
    });
}

#[test]
fn the_whole_sync_word_is_unfinished() {
    for order in ORDERS {
        assert_eq!(lines(order, &order.sync()), "cut 0 4\n");
    }
}

/// Where no byte is left, none begins a sync word.
#[test]
fn nothing_stands_at_the_end() {
    each_tail(|stream, tail| {
        for place in [tail.len(), tail.len() + 1] {
            assert_eq!(look(stream.order(), tail, place), Look::NoSync);
        }
    });
}

#[test]
fn only_the_last_bytes_are_a_tail() {
    for (digits, expected) in [
        ("A1A1", "skip 0 1\ncut 1 1\n"),
        ("A1B2A1", "skip 0 2\ncut 2 1\n"),
        ("A1B2C3A1B2", "skip 0 3\ncut 3 2\n"),
        ("A1B2A1B2C3", "skip 0 2\ncut 2 3\n"),
        ("A1B2C300", "skip 0 4\n"),
        ("A100", "skip 0 2\n"),
        ("B2C3D4", "skip 0 3\n"),
        ("A1C3", "skip 0 2\n"),
        ("A1B2D4", "skip 0 3\n"),
    ] {
        assert_eq!(lines(Order::Big, &hex(digits)), expected);
    }
}
