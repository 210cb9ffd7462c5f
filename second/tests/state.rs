//! What data chunks show, seen through the dump.

use second::compose::Composer;
use second::dump::dump;
use second::kind::Kind;
use second::order::Order;
use second::reader::{Item, Reader, Verdict};
use second::samples::{CopyRefusal, Ready};

fn big() -> Composer {
    Composer::new(Order::Big)
}

/// The indented lines of the n-th chunk, joined with commas.
fn shown(stream: &Composer, chunk: usize) -> String {
    let text = dump(stream.bytes());
    let mut lines = text.lines();
    let mut left = chunk + 1;
    for line in lines.by_ref() {
        left -= usize::from(line.starts_with("chunk "));
        if left == 0 {
            break;
        }
    }
    let lines: Vec<&str> = lines
        .take_while(|line| line.starts_with("  "))
        .map(str::trim)
        .collect();
    lines.join(", ")
}

#[test]
fn regained_step_empties_the_state() {
    let mut stream = big();
    stream
        .long(Kind::Cf, 98)
        .long(Kind::Sr, 5)
        .shorts(Kind::Ssnr, 1, &[3, -4])
        .raw(&[0])
        .long(Kind::Sr, 6)
        .shorts(Kind::Ssnr, 2, &[5, 6])
        .shorts(Kind::Ssnr, 3, &[]);
    assert_eq!(
        shown(&stream, 2),
        "time 1, mark 1, SR__ 5, CF__ 98, samples 0 2 3 -4"
    );
    assert_eq!(shown(&stream, 4), "time 2, mark 1, SR__ 6, samples 0 2 5 6");
    assert_eq!(shown(&stream, 5), "time 3, mark 0, SR__ 6, samples 0 0");
}

#[test]
fn any_accepted_chunk_regains_step() {
    // An unknown type and a malformed data chunk after the gap.
    let mut stream = big();
    stream
        .long(Kind::Sr, 5)
        .raw(&[0])
        .chunk_of(7, &[])
        .shorts(Kind::Ssnr, 1, &[]);
    assert_eq!(shown(&stream, 2), "time 1");
    let mut stream = big();
    stream
        .long(Kind::Sr, 5)
        .raw(&[0])
        .empty(Kind::Ssnc)
        .shorts(Kind::Ssnr, 1, &[]);
    assert_eq!(shown(&stream, 2), "time 1");
}

#[test]
fn malformed_chunks_remove_their_values() {
    let mut stream = big();
    stream
        .long(Kind::Sr, 5)
        .long(Kind::Cf, 98)
        .shorts(Kind::Ssnr, 1, &[])
        .empty(Kind::Cf)
        .shorts(Kind::Ssnr, 2, &[])
        .long(Kind::Sr, 0)
        .shorts(Kind::Ssnr, 3, &[])
        .long(Kind::Sr, 7)
        .shorts(Kind::Ssnr, 4, &[]);
    assert_eq!(
        shown(&stream, 2),
        "time 1, mark 1, SR__ 5, CF__ 98, samples 0 0"
    );
    assert_eq!(shown(&stream, 4), "time 2, mark 0, SR__ 5, samples 0 0");
    assert_eq!(shown(&stream, 6), "time 3");
    assert_eq!(shown(&stream, 8), "time 4, mark 1, SR__ 7, samples 0 0");
}

#[test]
fn bandwidth_and_its_offset() {
    let mut stream = big();
    stream
        .long(Kind::Sr, 5)
        .bandwidth_offset(30, -7)
        .shorts(Kind::Ssnr, 1, &[])
        .long(Kind::Gcbw, 20)
        .long(Kind::Bw, 10)
        .shorts(Kind::Ssnr, 2, &[])
        .bandwidth_offset(30, -7)
        .long(Kind::Bw, -1)
        .shorts(Kind::Ssnr, 3, &[])
        .long(Kind::Bw, 10)
        .bandwidth_offset(-1, 0)
        .empty(Kind::Gcbw)
        .shorts(Kind::Ssnr, 4, &[]);
    assert_eq!(
        shown(&stream, 2),
        "time 1, mark 1, SR__ 5, BW__ 30 -7, samples 0 0"
    );
    assert_eq!(
        shown(&stream, 5),
        "time 2, mark 0, SR__ 5, BW__ 10 0, GCBW 20, samples 0 0"
    );
    assert_eq!(
        shown(&stream, 8),
        "time 3, mark 0, SR__ 5, GCBW 20, samples 0 0"
    );
    assert_eq!(shown(&stream, 12), "time 4, mark 0, SR__ 5, samples 0 0");
}

#[test]
fn the_start_mark() {
    let mut stream = big();
    stream
        .long(Kind::Sr, 5)
        .shorts(Kind::Ssnr, 1, &[])
        .shorts(Kind::Ssnr, 2, &[])
        .empty(Kind::Iqdc)
        .shorts(Kind::Ssnr, 3, &[])
        .int(Kind::Iqdc, 0)
        .shorts(Kind::Ssnr, 4, &[])
        .empty(Kind::Ssnr)
        .shorts(Kind::Ssnr, 5, &[])
        .shorts(Kind::Ssnc, 6, &[])
        .shorts(Kind::Ssnr, 7, &[])
        .group_packing(1, 1, &[1])
        .shorts(Kind::Gsnc, 8, &[1, 2])
        .shorts(Kind::Ssnr, 9, &[])
        .text("no mark")
        .chunk_of(0, &[])
        .shorts(Kind::Ssnr, 10, &[]);
    let mark = |chunk| {
        let lines = shown(&stream, chunk);
        let word = lines.split(", ").nth(1).expect("a ready chunk");
        word.to_owned()
    };
    assert_eq!(mark(1), "mark 1"); // the first regained step
    assert_eq!(mark(2), "mark 0");
    assert_eq!(mark(4), "mark 1"); // IQDC
    assert_eq!(mark(6), "mark 0"); // a malformed IQDC sets nothing
    assert_eq!(mark(8), "mark 1"); // malformed data
    assert_eq!(mark(10), "mark 1"); // waiting data
    assert_eq!(mark(13), "mark 1"); // a group chunk without cover
    assert_eq!(mark(16), "mark 0");
    assert_eq!(shown(&stream, 9), "time 6");
    assert_eq!(shown(&stream, 12), "");
}

#[test]
fn lacks_in_their_order() {
    let mut stream = big();
    stream
        .level(Kind::Ffs, 1.0)
        .patterns(Kind::Sfnc, 0, &[])
        .long(Kind::Sr, 1)
        .patterns(Kind::Sfnc, 0, &[])
        .patterns(Kind::Gfnc, 0, &[])
        .int(Kind::Siqp, 0)
        .patterns(Kind::Sfnc, 0, &[])
        .pattern(Kind::Ffs, 0)
        .patterns(Kind::Sfnc, 0, &[])
        .patterns(Kind::Sfnr, 0, &[])
        .empty(Kind::Sr)
        .patterns(Kind::Sfnc, 0, &[])
        .shorts(Kind::Ssnr, 0, &[])
        .int(Kind::Siqp, 9)
        .patterns(Kind::Sfnc, 0, &[])
        .group_packing(1, 2, &[0, 9])
        .shorts(Kind::Gsnc, 0, &[0; 4])
        .long(Kind::Sr, 1)
        .shorts(Kind::Gsnc, 0, &[0; 4])
        .patterns(Kind::Gfnc, 0, &[0; 4]);
    let text = dump(stream.bytes());
    let verdicts: Vec<&str> = text
        .lines()
        .filter(|line| line.starts_with("chunk ") && line.contains("NC ") || line.contains("NR "))
        .map(|line| line.splitn(5, ' ').nth(4).unwrap())
        .collect();
    assert_eq!(
        verdicts,
        [
            "wait 21", "wait 21", "wait 21", "ok", "wait 23", "wait 23", "wait 22", "wait 22",
            "wait 21", "wait 22", "bad 16", "wait 23"
        ]
    );
}

#[test]
fn group_chunks_hide_lists_of_another_length() {
    let mut stream = big();
    stream
        .long(Kind::Sr, 1)
        .group_packing(0, 2, &[1, 0])
        .group_frequencies(&[-5, 6])
        .group_gains(&[1.0])
        .shorts(Kind::Gsnc, 0, &[1, 2, 3, 4, 5, 6, 7, 8])
        .shorts(Kind::Ssnr, 0, &[]);
    assert_eq!(
        shown(&stream, 4),
        "time 0, mark 1, SR__ 1, GIQP 2 0 2 1 0, GCF_ 2 -5 6, \
         samples 0 4 4 3 8 7, samples 1 4 2 1 6 5"
    );
    assert_eq!(
        shown(&stream, 5),
        "time 0, mark 0, SR__ 1, GIQP 2 0 2 1 0, GCF_ 2 -5 6, GRG_ 1 3F800000, samples 0 0"
    );
}

#[test]
fn all_values_in_their_order() {
    let mut stream = Composer::new(Order::Little);
    stream
        .group_gains(&[-0.0])
        .group_frequencies(&[i64::MIN])
        .group_packing(1, 1, &[0])
        .level(Kind::Ffs, 2.0)
        .level(Kind::Dbtg, 1.0)
        .level(Kind::Dbfs, -1.0)
        .long(Kind::Cf, -3)
        .long(Kind::Gcbw, 4)
        .long(Kind::Bw, 5)
        .long(Kind::Sr, i64::MAX)
        .int(Kind::Siqp, 0)
        .patterns(Kind::Sfnc, i64::MIN, &[0x7FC0_0001, 0xFF80_0000])
        .patterns(Kind::Gfnc, -1, &[1, 2]);
    let state = "SIQP 0, SR__ 9223372036854775807, BW__ 5 0, GCBW 4, CF__ -3, \
                 dBFS BF800000, dBTG 3F800000, FFS_ 40000000, GIQP 1 1 1 0, \
                 GCF_ 1 -9223372036854775808, GRG_ 1 80000000, sum 0 3F800000";
    assert_eq!(
        shown(&stream, 11),
        format!("time -9223372036854775808, mark 1, {state}, samples 0 2 FF800000 7FC00001")
    );
    assert_eq!(
        shown(&stream, 12),
        format!("time -1, mark 0, {state}, samples 0 2 00000001 00000002")
    );
}

#[test]
fn data_without_samples_is_covered_by_any_layout() {
    let mut stream = big();
    stream
        .long(Kind::Sr, 1)
        .group_packing(1, 1, &[9, 9])
        .shorts(Kind::Gsnc, 0, &[]);
    assert_eq!(
        shown(&stream, 2),
        "time 0, mark 1, SR__ 1, GIQP 2 1 1 9 9, samples 0 0, samples 1 0"
    );
}

fn last_ready(stream: &Composer) -> Ready<'_> {
    let ready = Reader::new(stream.order(), stream.bytes()).filter_map(|item| match item {
        Item::Chunk {
            verdict: Verdict::Ready(ready),
            ..
        } => Some(ready),
        _ => None,
    });
    ready.last().expect("a ready chunk")
}

#[test]
fn copying_refuses_in_order_and_fills_no_more() {
    let mut stream = big();
    stream
        .long(Kind::Sr, 1)
        .int(Kind::Siqp, 0)
        .shorts(Kind::Ssnc, 0, &[1, 2, 3, 4]);
    let ready = last_ready(&stream);
    let mut shorts = [9; 6];
    let mut patterns = [9; 6];
    assert_eq!(
        ready.copy_patterns(1, &mut patterns[..0]),
        Err(CopyRefusal::Width)
    );
    assert_eq!(
        ready.copy_shorts(1, &mut shorts[..0]),
        Err(CopyRefusal::Channel)
    );
    assert_eq!(
        ready.copy_shorts(0, &mut shorts[..3]),
        Err(CopyRefusal::Room)
    );
    assert_eq!((shorts, patterns), ([9; 6], [9; 6]));
    assert_eq!(ready.copy_shorts(0, &mut shorts), Ok(4));
    assert_eq!(shorts, [2, 1, 4, 3, 9, 9]);
    let numbers =
        [CopyRefusal::Room, CopyRefusal::Channel, CopyRefusal::Width].map(CopyRefusal::number);
    assert_eq!(numbers, [33, 34, 35]);
}

#[test]
fn channels_in_runs_and_combs() {
    let numbers: Vec<i16> = (0..12).collect();
    let channels = |packing, increment, offsets: &[i32]| {
        let mut stream = big();
        stream
            .long(Kind::Sr, 1)
            .group_packing(packing, increment, offsets)
            .shorts(Kind::Gsnc, 0, &numbers);
        let ready = last_ready(&stream);
        (0..ready.channels())
            .map(|channel| {
                let mut out = vec![0; ready.numbers()];
                ready.copy_shorts(channel, &mut out).unwrap();
                out
            })
            .collect::<Vec<_>>()
    };
    assert_eq!(
        channels(1, 1, &[4, 0, 2]),
        [[8, 9, 10, 11], [0, 1, 2, 3], [4, 5, 6, 7]]
    );
    assert_eq!(
        channels(0, 1, &[0, 2, 4]),
        [[1, 0, 3, 2], [5, 4, 7, 6], [9, 8, 11, 10]]
    );
    assert_eq!(
        channels(1, 3, &[2, 1, 0]),
        [[4, 5, 10, 11], [2, 3, 8, 9], [0, 1, 6, 7]]
    );
    assert_eq!(
        channels(0, 2, &[0, 1]),
        [[1, 0, 5, 4, 9, 8], [3, 2, 7, 6, 11, 10]]
    );
}
