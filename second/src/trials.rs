//! What is compared with the library for each stream: its dump, the file
//! check in both orders, its items counted and the rows for them, and digests
//! of what copying and writing answer and leave behind, and of what cursors
//! made at will are answered.

mod cursors;
mod sums;

use std::collections::BTreeMap;

use crate::check::check;
use crate::dump::dump;
use crate::filecheck::check_file;
use crate::list::{line, MOST_BYTES};
use crate::make::make;
use crate::order::Order;
use crate::reader::{Item, Reader, Verdict};
use crate::rows::rows_for;
use crate::samples::CopyRefusal;
use crate::verdicts::Verdicts;
use crate::write::write_at;

/// The length of the outputs of a copy, and what they hold before it.
const ROOM: usize = 64;
const SHORT: i16 = -0x5556;
const PATTERN: u32 = 0xAAAA_AAAA;

/// The channels copied from, and how much of an output is copied into.
const CHANNELS: [usize; 4] = [0, 1, 15, 16];
const ROOMS: [usize; 3] = [0, 6, ROOM];

/// The length of the output written into, from bodies and from values.
const OUT_BYTES: usize = 512;
const VALUES_BYTES: usize = 2048;

/// Longer bodies aren't written from their values.
const MOST_BODY: usize = 1032;

/// The order a stream is read in, and the one it is written in.
const ORDERS: [(&str, Order, Order); 3] = [
    ("big", Order::Big, Order::Big),
    ("little", Order::Little, Order::Little),
    ("turned", Order::Big, Order::Little),
];

/// A running digest of numbers of 32 bits.
struct Digest(u64);

impl Digest {
    /// Above 2^32, so that no two numbers fall together, and so small that 31
    /// times it fits into 64 bits.
    const PRIME: u64 = 288_230_376_151_711_717;

    fn new() -> Self {
        Digest(1)
    }

    fn add(&mut self, number: u64) {
        self.0 = (self.0 * 31 + number) % Self::PRIME;
    }

    /// A refusal's number, after one that no count or place reaches.
    fn add_refusal(&mut self, number: u32) {
        self.add(4_000_000_000);
        self.add(number.into());
    }

    /// What a copy of each width answered, a count or a refusal's number, and
    /// what both outputs then hold, in turn.
    fn add_copies(
        &mut self,
        answers: [Result<usize, u32>; 2],
        shorts: [i16; ROOM],
        patterns: [u32; ROOM],
        met: &mut Met,
    ) {
        for answer in answers {
            match answer {
                Ok(count) => {
                    met.answer("copy", "count");
                    self.add(count as u64);
                }
                Err(number) => {
                    met.answer("copy", &number.to_string());
                    self.add_refusal(number);
                }
            }
        }
        for (number, pattern) in shorts.into_iter().zip(patterns) {
            self.add(u64::from(number as u16));
            self.add(pattern.into());
        }
    }
}

/// How often each answer was met.
#[derive(Default)]
pub struct Met {
    verdicts: Verdicts,
    answers: BTreeMap<String, usize>,
}

impl Met {
    fn answer(&mut self, call: &str, answer: &str) {
        *self.answers.entry(format!("{call} {answer}")).or_default() += 1;
    }

    /// A line for each answer with its count.
    pub fn table(&self) -> String {
        let mut text = String::new();
        for ((kind, verdict), count) in self.verdicts.counts() {
            line(&mut text, format_args!("{kind} {verdict} {count}"));
        }
        for (answer, count) in &self.answers {
            line(&mut text, format_args!("{answer} {count}"));
        }
        text
    }

    /// The answers that there are and that were not met.
    pub fn missing(&self) -> Vec<String> {
        let verdicts = self.verdicts.missing();
        let verdicts = verdicts
            .iter()
            .map(|(kind, verdict)| format!("{kind} {verdict}"));
        let answers = expected().filter(|answer| !self.answers.contains_key(answer));
        verdicts.chain(answers).collect()
    }

    /// The answers that were met and that no stream can give.
    pub fn outside(&self) -> Vec<String> {
        let verdicts = self.verdicts.outside();
        let verdicts = verdicts
            .iter()
            .map(|(kind, verdict)| format!("{kind} {verdict}"));
        let answers = self
            .answers
            .keys()
            .filter(|met| !expected().any(|e| e == **met));
        verdicts.chain(answers.cloned()).collect()
    }
}

/// The answers of the file check, of copying, of a step and of writing, and the
/// sorts of sums.
fn expected() -> impl Iterator<Item = String> {
    let calls: [(&str, &[&str]); 5] = [
        ("check", &["good", "41", "42", "43", "44"]),
        ("copy", &["count", "2", "3", "33", "34", "35"]),
        ("step", &["item", "end", "2", "3"]),
        ("sum", &sums::SORTS),
        (
            "write",
            &["next", "2", "11", "12", "13", "14", "15", "31", "32"],
        ),
    ];
    calls
        .into_iter()
        .flat_map(|(call, answers)| answers.iter().map(move |answer| format!("{call} {answer}")))
}

/// The streams of a trial: the first `count` from seed `from` on that have at
/// most `most` bytes, and then every one that meets a verdict not met before,
/// until all are. Those too long to be listed are cut to the byte that shows
/// it.
pub fn streams(from: u64, count: usize, most: usize) -> Vec<Vec<u8>> {
    let mut verdicts = Verdicts::default();
    let mut streams = Vec::new();
    let mut take = |mut stream: Vec<u8>, verdicts: &mut Verdicts| {
        stream.truncate(MOST_BYTES + 1);
        verdicts.add(&dump(&stream)).expect("a dump");
        streams.push(stream);
    };
    for stream in (from..).map(make).filter(|s| s.len() <= most).take(count) {
        take(stream, &mut verdicts);
    }
    for stream in (from..).map(make) {
        let missing = verdicts.missing().len();
        if missing == 0 {
            break;
        }
        let mut with = verdicts.clone();
        with.add(&dump(&stream)).expect("a dump");
        if with.missing().len() < missing {
            take(stream, &mut verdicts);
        }
    }
    streams
}

/// The lines of one stream.
pub fn trial(stream: &[u8], met: &mut Met) -> String {
    let mut text = dump(stream);
    met.verdicts
        .add(&text)
        .expect("the lines are those of a dump");
    sums::meet(stream, met);
    for order in [Order::Big, Order::Little] {
        let answer = match check_file(order, stream) {
            Ok(items) => {
                met.answer("check", "good");
                format!("good {items}")
            }
            Err(refusal) => {
                met.answer("check", &refusal.number().to_string());
                format!("refused {} {}", refusal.number(), refusal.place())
            }
        };
        line(&mut text, format_args!("check {} {answer}", order.name()));
    }
    for order in [Order::Big, Order::Little] {
        let items = Reader::new(order, stream).count();
        line(&mut text, format_args!("items {} {items}", order.name()));
    }
    let bytes = stream.len() as u64;
    for (head, bytes) in [("rows", bytes), ("most rows", u64::MAX - bytes)] {
        line(&mut text, format_args!("{head} {}", rows_for(bytes)));
    }
    for order in [Order::Big, Order::Little] {
        let digest = copies(order, stream, met);
        line(&mut text, format_args!("copies {} {digest}", order.name()));
    }
    for (name, read, written) in ORDERS {
        let digest = writes(read, written, stream, met);
        line(&mut text, format_args!("writes {name} {digest}"));
    }
    for (name, read, written) in ORDERS {
        let digest = values(read, written, stream);
        line(&mut text, format_args!("values {name} {digest}"));
    }
    for order in [Order::Big, Order::Little] {
        let digest = cursors::digest(order, stream, met);
        line(&mut text, format_args!("cursors {} {digest}", order.name()));
    }
    text
}

/// Copies of both widths out of every item. What is no ready data chunk of
/// the width refuses them all.
fn copies(order: Order, stream: &[u8], met: &mut Met) -> u64 {
    let mut digest = Digest::new();
    for item in Reader::new(order, stream) {
        let ready = match &item {
            Item::Chunk {
                verdict: Verdict::Ready(ready),
                ..
            } => Some(ready),
            _ => None,
        };
        for channel in CHANNELS {
            for room in ROOMS {
                let mut shorts = [SHORT; ROOM];
                let mut patterns = [PATTERN; ROOM];
                let answers = match ready {
                    Some(ready) => [
                        ready.copy_shorts(channel, &mut shorts[..room]),
                        ready.copy_patterns(channel, &mut patterns[..room]),
                    ],
                    None => [Err(CopyRefusal::Width); 2],
                };
                let answers = answers.map(|answer| answer.map_err(CopyRefusal::number));
                digest.add_copies(answers, shorts, patterns, met);
            }
        }
    }
    digest.0
}

/// Each chunk written as a record: past the end, without its body's last
/// byte, and as it is, after those before it.
fn writes(read: Order, written: Order, stream: &[u8], met: &mut Met) -> u64 {
    let mut digest = Digest::new();
    let mut out = [0xAA; OUT_BYTES];
    let mut place = 0;
    for item in Reader::new(read, stream) {
        let Item::Chunk { frame, .. } = item else {
            continue;
        };
        let body = frame.body(stream);
        let less = &body[..body.len().saturating_sub(1)];
        let mut put =
            |body: &[u8], at: usize| match write_at(written, frame.code, body, &mut out, at) {
                Ok(next) => {
                    met.answer("write", "next");
                    digest.add(next as u64);
                    next
                }
                Err(refusal) => {
                    met.answer("write", &refusal.number().to_string());
                    digest.add_refusal(refusal.number());
                    at
                }
            };
        put(body, OUT_BYTES + 1);
        put(less, place);
        place = put(body, place);
    }
    for byte in out {
        digest.add(byte.into());
    }
    digest.0
}

/// Each well-formed chunk of a known kind written anew from its values.
fn values(read: Order, written: Order, stream: &[u8]) -> u64 {
    let mut digest = Digest::new();
    let mut out = [0xAA; VALUES_BYTES];
    let mut place = 0;
    for item in Reader::new(read, stream) {
        let Item::Chunk {
            frame,
            kind: Some(kind),
            ..
        } = item
        else {
            continue;
        };
        let body = frame.body(stream);
        let Ok(held) = check(read, kind, body) else {
            continue;
        };
        if body.len() > MOST_BODY {
            continue;
        }
        let body = held.bytes(kind, read, written);
        match write_at(written, frame.code, &body, &mut out, place) {
            Ok(next) => {
                digest.add(next as u64);
                place = next;
            }
            Err(refusal) => digest.add_refusal(refusal.number()),
        }
    }
    for byte in out {
        digest.add(byte.into());
    }
    digest.0
}
