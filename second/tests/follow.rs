//! A recording followed while it grows, in parts of 64 bytes.

use second::compose::Composer;
use second::examples::follow;
use second::kind::Kind;
use second::list::list;
use second::make::make;
use second::order::Order;
use second::recordings;

/// A rate and its data up to 48, and then 30 bytes of no chunk. Of the IQDC at
/// 126 the second part has two bytes, and the last two bytes of all begin a
/// sync word.
#[test]
fn pieces_and_a_tail() {
    let mut stream = Composer::new(Order::Little);
    stream
        .long(Kind::Sr, 8_000_000_000)
        .shorts(Kind::Ssnr, 1, &[5, -5, 6, -6])
        .raw(&[0x11; 30])
        .shorts(Kind::Ssnr, 2, &[7, -7, 8, -8])
        .long(Kind::Sr, 8_000_000_000)
        .empty(Kind::Iqdc)
        .shorts(Kind::Ssnr, 3, &[])
        .raw(&[0xD4, 0xC3]);
    let expected = "read 64\n\
        chunk 0 SR__ 8 ok\n\
        chunk 20 SSNR 16 ok\n\
        skip 48 16\n\
        read 128\n\
        skip 64 14\n\
        chunk 78 SSNR 16 wait 22\n\
        chunk 106 SR__ 8 ok\n\
        read 160\n\
        chunk 126 IQDC 0 ok\n\
        chunk 138 SSNR 8 ok\n\
        cut 158 2\n";
    assert_eq!(follow(stream.bytes()), expected);
}

/// The first part ends with two bytes of the only sync word, so that there is
/// no order yet; reading then begins at the start.
#[test]
fn an_order_found_late() {
    let mut stream = Composer::new(Order::Big);
    stream.raw(&[0; 62]).empty(Kind::Iqdc);
    assert_eq!(
        follow(stream.bytes()),
        "read 64\nread 74\nskip 0 62\nchunk 62 IQDC 0 ok\n"
    );
}

#[test]
fn no_order() {
    assert_eq!(follow(&[]), "");
    assert_eq!(follow(&[0; 64]), "read 64\n");
    assert_eq!(follow(&[0; 129]), "read 64\nread 128\nread 129\n");
    assert_eq!(follow(&[0xA1, 0xB2, 0xC3]), "read 3\n");
}

/// A chunk that is never whole has its line at the end alone.
#[test]
fn an_end_that_stays_unfinished() {
    let mut stream = Composer::new(Order::Big);
    stream.header(Kind::Ssnc.code(), 200).raw(&[0; 60]);
    assert_eq!(follow(stream.bytes()), "read 64\nread 72\ncut 0 72\n");
}

#[test]
fn no_byte_past_the_limit_is_read() {
    let mut bytes = vec![0; 65_535];
    bytes[..12].copy_from_slice(Composer::new(Order::Big).empty(Kind::Iqdc).bytes());
    bytes.extend(Order::Big.sync());
    let text = follow(&bytes);
    assert!(text.starts_with("read 64\nchunk 0 IQDC 0 ok\nskip 12 52\nread 128\n"));
    assert!(text.ends_with("read 65536\nskip 65472 63\ncut 65535 1\n"));
    assert_eq!(text.matches("read ").count(), 1024);
}

/// The lines of a followed recording without those of the reads, and with the
/// pieces of a skipped stretch joined.
fn joined(text: &str) -> Vec<String> {
    let mut lines: Vec<String> = Vec::new();
    let mut skipped = None;
    for line in text.lines().filter(|line| !line.starts_with("read ")) {
        let words: Vec<&str> = line.split(' ').collect();
        let piece = match words[..] {
            ["skip", place, len] => Some((place.to_owned(), len.parse::<usize>().unwrap())),
            _ => None,
        };
        skipped = match (skipped, piece) {
            (Some((place, before)), Some((_, len))) => {
                lines.pop();
                Some((place, before + len))
            }
            (_, piece) => piece,
        };
        lines.push(match &skipped {
            Some((place, len)) => format!("skip {place} {len}"),
            None => line.to_owned(),
        });
    }
    lines
}

#[test]
fn the_items_are_those_of_the_listing() {
    let samples = recordings::all().into_iter().map(|(_, bytes)| bytes);
    for stream in samples.chain((0..300).map(make)) {
        let listing = list(&stream);
        let items: Vec<&str> = match listing.lines().collect::<Vec<_>>()[..] {
            [_, ref items @ .., _] => items.to_vec(),
            ["none"] => Vec::new(),
            _ => continue,
        };
        assert_eq!(joined(&follow(&stream)), items);
    }
}
