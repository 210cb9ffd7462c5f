//! The library's compiled code against the second program's and against what the machine can do at most, as a table.

mod fast;
mod inputs;
mod limits;
mod moves;
mod ours;
mod race;
mod table;

use inputs::{CHANNELS, MIB, SAMPLES};
use limits::{by_bytes, by_memchr, by_windows};
use moves::{ANSWER, CURSOR};
use ours::Number;
use race::{middle, race, Run, Times};
use second::write::write_record;
use second::{Item, Kind, Order, Ready, Verdict};
use std::hint::black_box;
use table::{grown, table, Growth, Row};

fn main() {
    fast::agrees();
    let mut rows = Vec::new();
    steps(&mut rows);
    searches(&mut rows);
    copies(&mut rows);
    texts(&mut rows);
    writes(&mut rows);
    let growth = growths(&mut rows);
    table(&rows);
    println!();
    grown(&growth);
}

/// Runs the contestants, the library's first and the second program's next, once all of them agree.
fn same(work: &str, contestants: &mut [Run]) -> Vec<Times> {
    let answers: Vec<usize> = contestants.iter_mut().map(|run| run()).collect();
    assert!(
        answers.iter().all(|a| *a == answers[0]),
        "{work}: {answers:?}"
    );
    eprintln!("{work}");
    race(contestants)
}

fn row(rows: &mut Vec<Row>, work: String, bytes: usize, mut contestants: Vec<Run>) {
    let mut times = same(&work, &mut contestants).into_iter();
    rows.push(Row {
        work,
        bytes,
        ours: times.next().expect("the library runs"),
        rust: times.next().expect("the second program runs"),
        limit: times.next(),
        plain: times.next(),
    });
}

/// Whether an item is a chunk that is good, unknown or ready.
fn is_sound(item: &Item) -> bool {
    matches!(
        item,
        Item::Chunk {
            verdict: Verdict::Unknown | Verdict::Plain(_) | Verdict::Ready(_),
            ..
        }
    )
}

fn sound(order: Order, s: &[u8]) -> usize {
    fast::reader(order, s).filter(is_sound).count()
}

/// The same, and beside each step what a step by value moves: the cursor comes in and goes into the answer, which shows a state
/// beside it, and out of the answer into the next step.
fn sound_by_value(order: Order, s: &[u8]) -> usize {
    let (mut cursor, mut answer) = ([0; CURSOR / 8], [0; ANSWER / 8]);
    let moved = |item: &Item| {
        let (shown, next) = answer.split_at_mut((ANSWER - CURSOR) / 8);
        shown.fill(0);
        next.copy_from_slice(black_box(&cursor));
        cursor.copy_from_slice(&black_box(&answer)[(ANSWER - CURSOR) / 8..]);
        is_sound(item)
    };
    fast::reader(order, s).filter(moved).count()
}

fn steps(rows: &mut Vec<Row>) {
    for order in [Order::Big, Order::Little] {
        for (what, s) in [
            ("small meta chunks", inputs::small(order, MIB)),
            ("small data chunks", inputs::small_data(order, MIB)),
            ("large data chunks", inputs::large(order, 16 * MIB)),
        ] {
            let work = format!("step, {what}, {}", order.name());
            let ours = || ours::step(order, &s);
            let rust = || sound(order, &s);
            let limit = || sound_by_value(order, &s);
            let contestants: Vec<Run> = vec![Box::new(ours), Box::new(rust), Box::new(limit)];
            row(rows, work, s.len(), contestants);
        }
    }
}

fn searches(rows: &mut Vec<Row>) {
    let order = Order::Big;
    for (what, s) in inputs::noise(4 * MIB) {
        let work = format!("search, {what}");
        let ours = || ours::search(order, &s, 0);
        let rust = || fast::search(order, &s, 0).unwrap_or(s.len());
        let mut contestants: Vec<Run> = vec![
            Box::new(ours),
            Box::new(rust),
            Box::new(|| by_memchr(order, &s)),
            Box::new(|| by_windows(order, &s)),
            Box::new(|| by_bytes(order, &s)),
        ];
        let mut times = same(&work, &mut contestants);
        let plain = times.pop();
        // The faster of the two is the limit.
        times[2..].sort_by(|a, b| middle(a).middle.total_cmp(&middle(b).middle));
        let mut times = times.into_iter();
        let (ours, rust) = (times.next().expect("first"), times.next().expect("second"));
        let limit = times.next();
        rows.push(Row {
            work,
            bytes: s.len(),
            ours,
            rust,
            limit,
            plain,
        });
    }
}

/// The first ready chunk of a stream.
fn ready(order: Order, s: &[u8]) -> Ready<'_> {
    fast::reader(order, s)
        .find_map(|item| match item {
            Item::Chunk {
                verdict: Verdict::Ready(ready),
                ..
            } => Some(ready),
            _ => None,
        })
        .expect("the stream has a ready chunk")
}

/// One channel of a stream of a few metas and one large chunk. Both sides read the stream up to the chunk; the time that each
/// takes for the metas is measured beside it and taken off.
fn copying<T: Number>(
    rows: &mut Vec<Row>,
    work: String,
    order: Order,
    metas: &[u8],
    s: &[u8],
    channel: usize,
) {
    let steps = fast::count(order, metas);
    let ready = ready(order, s);
    let n = ready.numbers();
    let bytes = n * size_of::<T>();
    let samples = &ready.samples[..bytes];
    let mut ours = vec![T::default(); n + 1];
    let mut rust = ours.clone();
    assert_eq!(T::copy(order, s, steps, channel, &mut ours), n, "{work}");
    assert_eq!(T::copy_ready(&ready, channel, &mut rust), n, "{work}");
    assert!(ours == rust, "{work}: other numbers");
    let mut plain = vec![0; bytes];
    let limit = || {
        plain.copy_from_slice(std::hint::black_box(samples));
        n
    };
    let mut contestants: Vec<Run> = vec![
        Box::new(|| T::copy(order, s, steps, channel, &mut ours)),
        Box::new(|| T::copy_ready(&self::ready(order, s), channel, &mut rust)),
        Box::new(limit),
    ];
    let times = same(&work, &mut contestants);
    let before = race(&mut [
        Box::new(|| ours::step(order, metas)),
        Box::new(|| sound(order, metas)),
    ]);
    let copied = |k: usize| -> Times {
        let metas = middle(&before[k]).middle;
        times[k].iter().map(|t| t - metas).collect()
    };
    rows.push(Row {
        work,
        bytes,
        ours: copied(0),
        rust: copied(1),
        limit: Some(times[2].clone()),
        plain: None,
    });
}

fn copies(rows: &mut Vec<Row>) {
    let apart = |pairs: usize| -> Vec<i32> {
        (0..CHANNELS)
            .map(|c| (c * pairs / CHANNELS) as i32)
            .collect()
    };
    let turns: Vec<i32> = (0..CHANNELS as i32).collect();
    let n = CHANNELS as i32;
    let (shorts, floats) = (SAMPLES / 4, SAMPLES / 8);
    let kinds = [
        ("16-bit pairs", Kind::Ssnc, true, 1, vec![0], 0),
        ("16-bit pairs, Q first", Kind::Ssnc, false, 1, vec![0], 0),
        ("16-bit reals", Kind::Ssnr, true, 1, vec![0], 0),
        (
            "16-bit group, increment 1",
            Kind::Gsnc,
            true,
            1,
            apart(shorts),
            1,
        ),
        (
            "16-bit group, increment 4",
            Kind::Gsnc,
            true,
            n,
            turns.clone(),
            1,
        ),
        ("float pairs", Kind::Sfnc, true, 1, vec![0], 0),
        ("float pairs, Q first", Kind::Sfnc, false, 1, vec![0], 0),
        ("float reals", Kind::Sfnr, true, 1, vec![0], 0),
        (
            "float group, increment 1",
            Kind::Gfnc,
            true,
            1,
            apart(floats),
            1,
        ),
        ("float group, increment 4", Kind::Gfnc, true, n, turns, 1),
    ];
    for order in [Order::Little, Order::Big] {
        for (what, kind, iq, increment, offsets, channel) in &kinds {
            let work = format!("copy, {what}, {}", order.name());
            let mut stream = inputs::metas(order, *iq, *increment, offsets);
            let metas = stream.bytes().to_vec();
            let numbers: Vec<u32> = (0..SAMPLES as u32 / 4)
                .map(|k| k.wrapping_mul(0x9E37_79B9))
                .collect();
            stream.patterns(*kind, 5, &numbers);
            let s = stream.bytes();
            match kind {
                Kind::Ssnc | Kind::Ssnr | Kind::Gsnc => {
                    copying::<i16>(rows, work, order, &metas, s, *channel)
                }
                _ => copying::<u32>(rows, work, order, &metas, s, *channel),
            }
        }
    }
}

fn texts(rows: &mut Vec<Row>) {
    let order = Order::Big;
    for (what, body) in inputs::texts(order) {
        let ours = || ours::text(order, &body) as usize;
        let rust = || second::check_text(order, &body).map_or(1, |_| 0);
        row(
            rows,
            format!("TEXT, {what}"),
            body.len(),
            vec![Box::new(ours), Box::new(rust)],
        );
    }
}

/// Every chunk of a stream as a record.
fn records(order: Order, s: &[u8]) -> Vec<(u32, &[u8])> {
    fast::reader(order, s)
        .filter_map(|item| match item {
            Item::Chunk { frame, .. } => Some((frame.code, frame.body(s))),
            _ => None,
        })
        .collect()
}

fn writes(rows: &mut Vec<Row>) {
    for order in [Order::Little, Order::Big] {
        for (what, s) in [
            ("small records", inputs::small(order, MIB / 16)),
            ("small data records", inputs::small_data(order, MIB / 16)),
            ("large records", inputs::large(order, MIB / 2)),
        ] {
            let work = format!("write, {what}, {}", order.name());
            let records = records(order, &s);
            let mut ours = vec![0; s.len()];
            let mut rust = Vec::with_capacity(s.len());
            let mut plain = vec![0; s.len()];
            let write = |ours: &mut [u8]| {
                records.iter().fold(0, |place, (code, body)| {
                    ours::write(order, *code, body, ours, place)
                })
            };
            assert_eq!(write(&mut ours), s.len(), "{work}");
            assert!(ours == s, "{work}: other bytes");
            let contestants: Vec<Run> = vec![
                Box::new(|| write(&mut ours)),
                Box::new(|| {
                    rust.clear();
                    for (code, body) in &records {
                        write_record(order, *code, body, &mut rust).expect("a record of a stream");
                    }
                    rust.len()
                }),
                Box::new(|| {
                    plain.copy_from_slice(std::hint::black_box(&s));
                    s.len()
                }),
            ];
            row(rows, work, s.len(), contestants);
        }
    }
}

fn growths(rows: &mut Vec<Row>) -> Vec<Growth> {
    let order = Order::Big;
    let sizes = [1, 4, 16, 64, 256];
    let whole = inputs::mixed(order, 256 * MIB);
    let noise = &inputs::noise(256 * MIB)[0].1;
    row(
        rows,
        "count the items of 256 MiB".into(),
        whole.len(),
        vec![
            Box::new(|| ours::count(order, &whole)),
            Box::new(|| fast::count(order, &whole)),
        ],
    );
    let grow = |work, run: &dyn Fn(usize) -> usize| Growth {
        work,
        times: sizes
            .map(|mib| (mib, middle(&race(&mut [Box::new(|| run(mib * MIB))])[0])))
            .to_vec(),
    };
    vec![
        grow("count", &|n| ours::count(order, &whole[..n])),
        grow("step", &|n| ours::step(order, &whole[..n])),
        grow("search", &|n| ours::search(order, &noise[..n], 0)),
    ]
}
