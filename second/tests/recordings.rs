//! What the sample recordings are meant to show.

use second::dump::dump;
use second::filecheck::check_file;
use second::list::list;
use second::order::Order;
use second::recordings::all;

fn recording(name: &str) -> Vec<u8> {
    let found = all().into_iter().find(|(n, _)| *n == name);
    found.expect(name).1
}

#[test]
fn all_are_small() {
    assert!(all().iter().all(|(_, bytes)| bytes.len() < 2048));
}

#[test]
fn whole() {
    let file = recording("whole.pxgf");
    assert_eq!(check_file(Order::Big, &file), Ok(13));
    // The note has 31 characters, one of them of three bytes: 33 bytes of
    // text in 36, and the length.
    assert!(list(&file).contains("chunk 16 TEXT 40 ok\nchunk 68 EOFH 0 ok\n"));
    let marks: Vec<String> = dump(&file)
        .lines()
        .filter(|line| line.starts_with("  mark"))
        .map(str::to_owned)
        .collect();
    assert_eq!(marks, ["  mark 1", "  mark 0", "  mark 1"]);
}

#[test]
fn dropped_link() {
    let expected = "pxgf big 216\n\
        chunk 0 CF__ 8 ok\n\
        chunk 20 SIQP 4 ok\n\
        chunk 36 SR__ 8 ok\n\
        chunk 56 SSNC 16 ok\n\
        \x20 time 1700000000000000000\n\
        \x20 mark 1\n\
        \x20 SIQP 1\n\
        \x20 SR__ 256000000000\n\
        \x20 CF__ 98500000000000\n\
        \x20 samples 0 4 1000 2000 3000 4000\n\
        skip 84 20\n\
        \x20 cause sync\n\
        chunk 104 SIQP 4 ok\n\
        chunk 120 SR__ 8 ok\n\
        chunk 140 SSNC 16 ok\n\
        \x20 time 1700000002000000000\n\
        \x20 mark 1\n\
        \x20 SIQP 1\n\
        \x20 SR__ 256000000000\n\
        \x20 samples 0 4 -5 6 -7 8\n\
        chunk 168 CF__ 8 ok\n\
        chunk 188 SSNC 16 ok\n\
        \x20 time 1700000003000000000\n\
        \x20 mark 0\n\
        \x20 SIQP 1\n\
        \x20 SR__ 256000000000\n\
        \x20 CF__ 121500000000000\n\
        \x20 samples 0 4 9 -10 11 -12\n\
        end 10\n";
    assert_eq!(dump(&recording("dropped-link.pxgf")), expected);
}

#[test]
fn group() {
    let text = dump(&recording("group.pxgf"));
    let samples: Vec<&str> = text
        .lines()
        .filter(|line| line.starts_with("  samples"))
        .collect();
    assert_eq!(
        samples,
        [
            "  samples 0 4 10 -1 50 -5",
            "  samples 1 4 20 -2 60 -6",
            "  samples 2 4 30 -3 70 -7",
            "  samples 3 4 40 -4 80 -8",
            "  samples 0 4 3F800000 BF000000 40A00000 C0200000",
            "  samples 1 4 40000000 BF800000 40C00000 C0400000",
            "  samples 2 4 40400000 BFC00000 40E00000 C0600000",
            "  samples 3 4 40800000 C0000000 41000000 C0800000",
            "  samples 0 4 -3 30 -4 40",
            "  samples 1 4 -1 10 -2 20",
            "  samples 2 4 -7 70 -8 80",
            "  samples 3 4 -5 50 -6 60",
        ]
    );
    // 24 plus 0, -0.5, 0.25 and 1.
    assert!(text.contains(
        "  GRG_ 4 00000000 BF000000 3E800000 3F800000\n\
         \x20 sum 0 41C00000\n\
         \x20 sum 1 41BC0000\n\
         \x20 sum 2 41C20000\n\
         \x20 sum 3 41C80000\n\
         \x20 samples 0 4 10"
    ));
    assert!(text.contains("GSNC 36 bad 16\nend 12\n"));
}

/// The sums: 20 with 0.5, -0 and -20; -0 with the same; the largest float with
/// itself, which gives none, with its opposite, and with 0.5, which is lost in
/// it; none without dBTG, and none in a group of three for gains of two; and 20
/// with 0.25 and -1.5.
#[test]
fn gains() {
    let text = dump(&recording("gains.pxgf"));
    let shows = |line: &&str| {
        let words = ["chunk", "  dBTG", "  GIQP", "  GRG_", "  sum"];
        words.iter().any(|word| line.starts_with(word))
    };
    let lines: Vec<&str> = text.lines().filter(shows).collect();
    assert_eq!(
        lines,
        [
            "chunk 0 GIQP 24 ok",
            "chunk 36 SR__ 8 ok",
            "chunk 56 GCF_ 28 ok",
            "chunk 96 GRG_ 16 ok",
            "chunk 124 dBTG 4 ok",
            "chunk 140 GSNC 20 ok",
            "  dBTG 41A00000",
            "  GIQP 3 1 3 0 1 2",
            "  GRG_ 3 3F000000 80000000 C1A00000",
            "  sum 0 41A40000",
            "  sum 1 41A00000",
            "  sum 2 00000000",
            "chunk 172 dBTG 4 ok",
            "chunk 188 GSNC 20 ok",
            "  dBTG 80000000",
            "  GIQP 3 1 3 0 1 2",
            "  GRG_ 3 3F000000 80000000 C1A00000",
            "  sum 0 3F000000",
            "  sum 1 80000000",
            "  sum 2 C1A00000",
            "chunk 220 dBTG 4 ok",
            "chunk 236 GRG_ 16 ok",
            "chunk 264 GSNC 20 ok",
            "  dBTG 7F7FFFFF",
            "  GIQP 3 1 3 0 1 2",
            "  GRG_ 3 7F7FFFFF FF7FFFFF 3F000000",
            "  sum 1 00000000",
            "  sum 2 7F7FFFFF",
            "chunk 296 dBTG 4 bad 12",
            "chunk 312 GSNC 20 ok",
            "  GIQP 3 1 3 0 1 2",
            "  GRG_ 3 7F7FFFFF FF7FFFFF 3F000000",
            "chunk 344 dBTG 4 ok",
            "chunk 360 GRG_ 12 ok",
            "chunk 384 GSNC 20 ok",
            "  dBTG 41A00000",
            "  GIQP 3 1 3 0 1 2",
            "chunk 416 SIQP 4 ok",
            "chunk 432 SSNC 12 ok",
            "  dBTG 41A00000",
            "  GIQP 3 1 3 0 1 2",
            "  GRG_ 2 3E800000 BFC00000",
            "  sum 0 41A20000",
            "  sum 1 41940000",
        ]
    );
}

#[test]
fn little() {
    let text = dump(&recording("little.pxgf"));
    assert!(text.starts_with("pxgf little "));
    // QI packing turns the pairs; a NaN keeps its bits.
    assert!(text.contains("  samples 0 4 BE800000 3F000000 80000000 7FC01234\n"));
    assert!(text.contains("  samples 0 3 3F800000 FFA00001 00000001\n"));
    assert!(text.contains("  BW__ 3000000000 -1000000000\n"));
}

#[test]
fn damaged() {
    let expected = "pxgf big 108\n\
        skip 0 5\n\
        chunk 5 SIQP 4 bad 12\n\
        chunk 21 TEXT 8 bad 14\n\
        chunk 41 4E4F5445 4 unknown\n\
        skip 57 12\n\
        chunk 69 SSNC 12 wait 21\n\
        cut 93 15\n\
        end 7\n";
    assert_eq!(list(&recording("damaged.pxgf")), expected);
}

#[test]
fn notes() {
    let file = recording("notes.pxgf");
    assert_eq!(check_file(Order::Big, &file), Ok(4));
    let text = dump(&file);
    let lines: Vec<&str> = text.lines().filter(|line| line.starts_with("  ")).collect();
    assert_eq!(
        lines,
        [
            "  value -2",
            "  text Zürich, 12 µW\\x09north \\x5C south\\x0D\\x0A\\x85\\x7F\\x00 東",
            "  text ",
        ]
    );
}

#[test]
fn lost_step() {
    let expected = "pxgf big 163\n\
        skip 0 4\n\
        \x20 cause searching\n\
        chunk 4 SIQP 4 ok\n\
        chunk 20 SR__ 8 ok\n\
        chunk 40 SSNC 12 ok\n\
        \x20 time 1700000000000000000\n\
        \x20 mark 1\n\
        \x20 SIQP 1\n\
        \x20 SR__ 48000000000\n\
        \x20 samples 0 2 100 -100\n\
        skip 64 15\n\
        \x20 cause sync\n\
        chunk 79 SR__ 8 ok\n\
        skip 99 12\n\
        \x20 cause large\n\
        chunk 111 SIQP 4 ok\n\
        skip 127 12\n\
        \x20 cause uneven\n\
        chunk 139 SSNC 12 wait 21\n\
        \x20 time 1700000001000000000\n\
        end 10\n";
    assert_eq!(dump(&recording("lost-step.pxgf")), expected);
}

/// SIQP has 16 bytes, SR__ and CF__ 20, and each SSNC of nine pairs 56; of the
/// third SSNC the last 42 are there. The 145 MHz from before the drop are not
/// shown behind it.
#[test]
fn still_running() {
    let expected = "pxgf big 249\n\
        chunk 0 SIQP 4 ok\n\
        chunk 16 SR__ 8 ok\n\
        chunk 36 CF__ 8 ok\n\
        chunk 56 SSNC 44 ok\n\
        \x20 time 1700000000000000000\n\
        \x20 mark 1\n\
        \x20 SIQP 1\n\
        \x20 SR__ 48000000000\n\
        \x20 CF__ 145000000000000\n\
        \x20 samples 0 18 1 -1 2 -2 3 -3 4 -4 5 -5 6 -6 7 -7 8 -8 9 -9\n\
        skip 112 42\n\
        \x20 cause sync\n\
        chunk 154 SIQP 4 ok\n\
        chunk 170 SR__ 8 ok\n\
        chunk 190 SSNC 44 ok\n\
        \x20 time 1700000002000000000\n\
        \x20 mark 1\n\
        \x20 SIQP 1\n\
        \x20 SR__ 48000000000\n\
        \x20 samples 0 18 20 -20 21 -21 22 -22 23 -23 24 -24 25 -25 26 -26 27 -27 28 -28\n\
        cut 246 3\n\
        end 9\n";
    assert_eq!(dump(&recording("still-running.pxgf")), expected);
}
