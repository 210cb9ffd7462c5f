//! Whole listings.

mod common;

use common::hex;
use second::compose::Composer;
use second::dump::dump;
use second::kind::Kind;
use second::list::list;
use second::order::Order;
use second::recordings::sized;

const EXAMPLE: &str = "00A1B2
    A1B2C3D4 43465F5F 00000008 00000000000003E8
    A1B2C3D4 49514443 00000000
    A1B2C3D4 41424344 00000000
    A1B2C3D4 53534E43 0000000C 0000000000000005 0001FFFF
    0000";

#[test]
fn the_example() {
    let input = hex(EXAMPLE);
    assert_eq!(input.len(), 73);
    let expected = "pxgf big 73\n\
        skip 0 3\n\
        chunk 3 CF__ 8 ok\n\
        chunk 23 IQDC 0 ok\n\
        chunk 35 41424344 0 unknown\n\
        chunk 47 SSNC 12 wait 21\n\
        skip 71 2\n\
        end 6\n";
    assert_eq!(list(&input), expected);
    let dumped = expected
        .replace("skip 0 3\n", "skip 0 3\n  cause searching\n")
        .replace("wait 21\n", "wait 21\n  time 5\n")
        .replace("skip 71 2\n", "skip 71 2\n  cause sync\n");
    assert_eq!(dump(&input), dumped);
}

#[test]
fn nothing_to_list() {
    assert_eq!(list(&[]), "none\n");
    assert_eq!(list(&hex("A1B2C3 D3 D4C3B2 A2")), "none\n");
    // The order needs a whole sync word.
    assert_eq!(list(&hex("A1B2C3")), "none\n");
    assert_eq!(list(&hex("00 D4C3B2")), "none\n");
}

#[test]
fn the_limit() {
    let mut input = hex("A1B2C3D4 49514443 00000000");
    input.resize(65_536, 0);
    assert_eq!(
        list(&input),
        "pxgf big 65536\nchunk 0 IQDC 0 ok\nskip 12 65524\nend 2\n"
    );
    input.push(0);
    assert_eq!(list(&input), "long\n");
    assert_eq!(list(&[0; 65_537]), "long\n");
}

#[test]
fn recordings_about_the_limit() {
    for bytes in [64, 65_533, 65_534, 65_535, 65_536, 65_537] {
        let input = sized(bytes);
        assert_eq!(input.len(), bytes);
        // SIQP has 16 bytes and SR__ 20.
        let (size, over) = (bytes / 4 * 4 - 48, bytes % 4);
        let skip = match over {
            0 => "end 3\n".to_owned(),
            _ => format!("skip {} {over}\nend 4\n", bytes - over),
        };
        let expected = match bytes {
            65_537 => "long\n".to_owned(),
            _ => format!(
                "pxgf big {bytes}\nchunk 0 SIQP 4 ok\nchunk 16 SR__ 8 ok\n\
                 chunk 36 SSNC {size} ok\n{skip}"
            ),
        };
        assert_eq!(list(&input), expected);
    }
}

#[test]
fn characters_of_a_text() {
    let mut stream = Composer::new(Order::Little);
    let text = "\0a\n\u{1F} ~\u{7F}\u{80}\u{85}\u{9F}\u{A0}\\x0A é\u{10FFFF}";
    stream
        .text(text)
        .text("")
        .int(Kind::Sofh, i32::MIN)
        .chunk(Kind::Sofh, &[])
        .chunk(Kind::Text, &[]);
    let expected = "pxgf little 100\n\
        chunk 0 TEXT 32 ok\n\
        \x20 text \\x00a\\x0A\\x1F ~\\x7F\\x80\\x85\\x9F\u{A0}\\x5Cx0A é\u{10FFFF}\n\
        chunk 44 TEXT 4 ok\n\
        \x20 text \n\
        chunk 60 SOFH 4 ok\n\
        \x20 value -2147483648\n\
        chunk 76 SOFH 0 bad 11\n\
        chunk 88 TEXT 0 bad 11\n\
        end 5\n";
    assert_eq!(dump(stream.bytes()), expected);
}

#[test]
fn little_order() {
    let input = hex("D4C3B2A1 43445149 00000000 D4C3B2A1 5F5F4643 08000000 E803");
    assert_eq!(
        list(&input),
        "pxgf little 26\nchunk 0 IQDC 0 ok\ncut 12 14\nend 2\n"
    );
}

#[test]
fn a_begun_sync_word_is_unfinished() {
    let input = hex("A1B2C3D4 49514443 00000000 A1");
    assert_eq!(
        list(&input),
        "pxgf big 13\nchunk 0 IQDC 0 ok\ncut 12 1\nend 2\n"
    );
    let input = hex("D4C3B2A1 43445149 00000000 0000 D4C3B2");
    assert_eq!(
        list(&input),
        "pxgf little 17\nchunk 0 IQDC 0 ok\nskip 12 2\ncut 14 3\nend 3\n"
    );
}

#[test]
fn the_lowest_sync_word_decides() {
    // The little word overlaps a big one that starts three bytes later.
    let input = hex("D4C3B2A1 B2C3D4 49514443 00000000");
    assert_eq!(second::find_order(&input), Some(Order::Little));
    assert_eq!(list(&input), "pxgf little 15\nskip 0 15\nend 1\n");
    let input = hex("A1B2C3D4 C3B2A1");
    assert_eq!(second::find_order(&input), Some(Order::Big));
    assert_eq!(list(&input), "pxgf big 7\ncut 0 7\nend 1\n");
}

#[test]
fn a_chunk_one_byte_late_is_found() {
    let input = hex("A1 A1B2C3D4 49514443 00000000");
    assert_eq!(
        list(&input),
        "pxgf big 13\nskip 0 1\nchunk 1 IQDC 0 ok\nend 2\n"
    );
}

#[test]
fn a_bad_header_is_searched() {
    // A size with the top bit set is no small number, and the chunk that
    // stands where the bad header's type would be is found.
    let negative = hex("A1B2C3D4 49514443 80000000 A1B2C3D4 49514443 00000000");
    assert_eq!(
        list(&negative),
        "pxgf big 24\nskip 0 12\nchunk 12 IQDC 0 ok\nend 2\n"
    );
    let inside = hex("A1B2C3D4 A1B2C3D4 49514443 00000000");
    assert_eq!(
        list(&inside),
        "pxgf big 16\nskip 0 4\nchunk 4 IQDC 0 ok\nend 2\n"
    );
}

#[test]
fn nothing_follows_an_unfinished_chunk() {
    let input = hex("A1B2C3D4 49514443 00000010 A1B2C3D4 49514443 00000000");
    assert_eq!(list(&input), "pxgf big 24\ncut 0 24\nend 1\n");
}

#[test]
fn sync_words_at_every_distance_are_found() {
    for place in 0..300 {
        let mut input = vec![0xA1; place];
        input.extend(hex("A1B2C3D4 49514443 00000000"));
        let skip = match place {
            0 => String::new(),
            _ => format!("skip 0 {place}\n"),
        };
        let items = if place == 0 { 1 } else { 2 };
        assert_eq!(
            list(&input),
            format!(
                "pxgf big {}\n{skip}chunk {place} IQDC 0 ok\nend {items}\n",
                place + 12
            )
        );
    }
}

#[test]
fn type_numbers() {
    let table = [
        ("SSNC", 0x53534E43),
        ("SSNR", 0x53534E52),
        ("SFNC", 0x53464E43),
        ("SFNR", 0x53464E52),
        ("GSNC", 0x47534E43),
        ("GFNC", 0x47464E43),
        ("SIQP", 0x53495150),
        ("SR__", 0x53525F5F),
        ("BW__", 0x42575F5F),
        ("GCBW", 0x47434257),
        ("BWOF", 0x42574F46),
        ("CF__", 0x43465F5F),
        ("dBFS", 0x64424653),
        ("dBTG", 0x64425447),
        ("FFS_", 0x4646535F),
        ("GIQP", 0x47495150),
        ("GCF_", 0x4743465F),
        ("GRG_", 0x4752475F),
        ("SOFH", 0x534F4648),
        ("EOFH", 0x454F4648),
        ("IQDC", 0x49514443),
        ("TEXT", 0x54455854),
    ];
    assert_eq!(Kind::ALL.len(), table.len());
    for (name, code) in table {
        let kind = Kind::from_code(code).expect(name);
        assert_eq!((kind.name(), kind.code()), (name, code));
        assert!(Kind::ALL.contains(&kind));
    }
}
