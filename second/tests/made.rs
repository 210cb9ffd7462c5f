//! The made streams: their limits, and that together they meet everything.

use second::dump::dump;
use second::filecheck::check_file;
use second::list::list;
use second::make::{make, MOST_BYTES};
use second::trials::{streams, trial, Met};
use second::utf8::{judge_strings, make_strings};
use second::verdicts::{table, Verdicts};
use second::{find_order, Order, Walk};

#[test]
fn every_possible_verdict_is_met() {
    let mut verdicts = Verdicts::default();
    for seed in 0..300 {
        verdicts.add(&dump(&make(seed))).unwrap();
    }
    assert_eq!(verdicts.missing(), []);
    assert_eq!(verdicts.outside(), []);
}

/// 22 ok; 22 with 11, 10 with 12, 3 with 13, TEXT with 14 and 15, 2 with 16;
/// 4 with 21, 6 with 22, 3 with 23; 6 lines without a kind, 4 causes and 2
/// orders.
#[test]
fn size_of_the_table() {
    let table = table();
    assert_eq!(
        table.len(),
        22 + 22 + 10 + 3 + 2 + 2 + 4 + 6 + 3 + 6 + 4 + 2
    );
    let has = |kind: &str, verdict: &str| table.contains(&(kind.into(), verdict.into()));
    assert!(has("SSNR", "wait 22") && !has("SSNR", "wait 21") && !has("SSNR", "wait 23"));
    assert!(has("SFNR", "wait 23") && !has("SFNR", "wait 21"));
    assert!(has("GSNC", "bad 16") && !has("SSNC", "bad 16"));
    assert!(!has("CF__", "bad 12") && !has("GCF_", "bad 12") && has("GRG_", "bad 12"));
    assert!(!has("TEXT", "bad 12") && !has("SOFH", "bad 12"));
    assert!(has("line", "cut") && has("line", "tail"));
}

/// An unfinished end is a tail if it has less than a sync word.
#[test]
fn ends_of_both_sorts() {
    let mut verdicts = Verdicts::default();
    verdicts
        .add("cut 0 1\ncut 7 3\ncut 7 4\ncut 0 80\ncut 9 5\n")
        .unwrap();
    let counts: Vec<(&str, usize)> = verdicts
        .counts()
        .map(|((_, word), count)| (word.as_str(), count))
        .collect();
    assert_eq!(counts, [("cut", 3), ("tail", 2)]);
    assert_eq!(verdicts.add("cut 0 some"), Err("cut 0 some".to_owned()));
}

#[test]
fn limits_and_sameness() {
    let mut long = 0;
    for seed in 0..300 {
        let stream = make(seed);
        assert_eq!(stream, make(seed));
        if stream.len() > MOST_BYTES {
            assert!(stream.len() > 65_536);
            long += 1;
        }
    }
    assert_eq!(long, 3);
}

/// The answers of calls and the sorts of sums, too, by the streams that are
/// stored.
#[test]
fn every_answer_of_a_trial_is_met() {
    let mut met = Met::default();
    for stream in streams(1, 330, 800) {
        trial(&stream, &mut met);
    }
    let none: [String; 0] = [];
    assert_eq!(met.missing(), none);
    assert_eq!(met.outside(), none);
}

#[test]
fn every_file_refusal_is_met() {
    let mut met = std::collections::BTreeMap::new();
    for seed in 0..300 {
        let stream = make(seed);
        let order = find_order(&stream).unwrap_or(Order::Big);
        let number = check_file(order, &stream).map_or_else(|refusal| refusal.number(), |_| 0);
        *met.entry(number).or_insert(0) += 1;
    }
    let numbers: Vec<u32> = met.keys().copied().collect();
    assert_eq!(numbers, [0, 41, 42, 43, 44]);
}

/// Every byte belongs to one item, and items are counted alike.
#[test]
fn items_share_out_the_bytes() {
    for seed in 0..300 {
        let stream = make(seed);
        let text = list(&stream);
        let Some(order) = find_order(&stream).filter(|_| text != "long\n") else {
            continue;
        };
        let mut place = 0;
        for line in text.lines().skip(1) {
            let words: Vec<&str> = line.split(' ').collect();
            let number = |i: usize| words[i].parse::<usize>().unwrap();
            match words[0] {
                "end" => assert_eq!(number(1), Walk::new(order, &stream).count()),
                "chunk" => {
                    assert_eq!(number(1), place);
                    place += 12 + number(3);
                }
                _ => {
                    assert_eq!(number(1), place);
                    place += number(2);
                }
            }
        }
        assert_eq!(place, stream.len(), "seed {seed}");
    }
}

#[test]
fn strings_of_both_sorts() {
    let mut file = Vec::new();
    make_strings(3, 10_000, &mut file).unwrap();
    let verdicts = judge_strings(&file).unwrap();
    assert_eq!(verdicts.len(), 10_000);
    for verdict in ['0', '1'] {
        assert!(verdicts.matches(verdict).count() > 3_000);
    }
    assert!(judge_strings(&file[..file.len() - 1]).is_none());
    assert_eq!(
        judge_strings(b"\x03\0\0\0\x01\0\0\0a\x02\0\0\0\xC0\x80\0\0\0\0").as_deref(),
        Some("101")
    );
}
