//! What the example programs print.

use std::fmt::Write;

use crate::compose::Composer;
use crate::dump::dump;
use crate::kind::{Kind, Width};
use crate::list::{item_line, line, listing, MOST_BYTES};
use crate::order::Order;
use crate::reader::{Bookmark, Item, Reader, Verdict};
use crate::samples::Ready;
use crate::search::find_order;

/// The most bytes that `follow` reads at once.
const PART: usize = 64;

/// A line for each item, and below a ready chunk of 16-bit numbers those of
/// channel 0. The lines around the items are left out.
pub fn first(bytes: &[u8]) -> String {
    let text = listing(bytes, |item, text| {
        if let Item::Chunk {
            verdict: Verdict::Ready(ready),
            ..
        } = item
        {
            if let Some(numbers) = shorts(ready, 0) {
                for number in numbers {
                    let _ = write!(text, " {number}");
                }
                text.push('\n');
            }
        }
    });
    let lines: Vec<&str> = text.lines().collect();
    match lines.as_slice() {
        [_, items @ .., _] => items.iter().map(|line| format!("{line}\n")).collect(),
        _ => String::new(),
    }
}

/// The dump of four records.
pub fn records() -> String {
    let mut stream = Composer::new(Order::Big);
    stream
        .int(Kind::Siqp, 1)
        .long(Kind::Sr, 48_000_000_000)
        .long(Kind::Cf, 98_500_000_000_000)
        .shorts(
            Kind::Ssnc,
            1_700_000_000_000_000_000,
            &[1000, -1000, 2000, -2000],
        );
    dump(stream.bytes())
}

/// For each ready chunk its time, its frequency or `-`, and the largest sample
/// of each channel that has one.
pub fn peaks(bytes: &[u8]) -> String {
    let mut text = String::new();
    let Some(order) = find_order(bytes) else {
        return text;
    };
    for item in Reader::new(order, bytes) {
        let Item::Chunk {
            verdict: Verdict::Ready(ready),
            ..
        } = item
        else {
            continue;
        };
        let _ = write!(text, "peak {}", ready.time);
        match ready.state.centre_frequency {
            Some(frequency) => {
                let _ = write!(text, " {frequency}");
            }
            None => text.push_str(" -"),
        }
        for channel in 0..ready.channels() {
            if let Some(peak) = peak(&ready, channel) {
                let _ = write!(text, " {peak}");
            }
        }
        text.push('\n');
    }
    text
}

/// A recording followed while it grows, part by part, up to the most bytes of a
/// listing: after each part how many bytes there are so far, and a line for
/// each item found behind those before. An unfinished end waits for the next
/// part, and has its line only if none comes.
pub fn follow(bytes: &[u8]) -> String {
    let bytes = &bytes[..bytes.len().min(MOST_BYTES)];
    let mut text = String::new();
    let mut order = None;
    let mut bookmark = Bookmark::default();
    let mut read = 0;
    while read < bytes.len() {
        read = bytes.len().min(read + PART);
        line(&mut text, format_args!("read {read}"));
        let so_far = &bytes[..read];
        order = order.or_else(|| find_order(so_far));
        if let Some(order) = order {
            bookmark = read_on(&mut text, Reader::at(order, so_far, &bookmark));
        }
    }
    if let Some(order) = order {
        for end in Reader::at(order, bytes, &bookmark) {
            item_line(&mut text, &end);
        }
    }
    text
}

/// Adds a line for each item before an unfinished end, and gives the bookmark
/// there; or at the end of the stream, if it is whole.
fn read_on(text: &mut String, mut reader: Reader) -> Bookmark {
    loop {
        let before = reader.bookmark();
        match reader.next() {
            None | Some(Item::Unfinished { .. }) => return before,
            Some(item) => item_line(text, &item),
        }
    }
}

/// The 16-bit numbers of a channel, if the chunk has such.
fn shorts(ready: &Ready, channel: usize) -> Option<Vec<i16>> {
    let mut out = vec![0; ready.numbers()];
    ready.copy_shorts(channel, &mut out).ok()?;
    Some(out)
}

/// The largest number of a channel in decimal, or a float by its pattern.
fn peak(ready: &Ready, channel: usize) -> Option<String> {
    match ready.form.width {
        Width::Short => Some(shorts(ready, channel)?.iter().max()?.to_string()),
        Width::Float => {
            let mut out = vec![0; ready.numbers()];
            ready.copy_patterns(channel, &mut out).ok()?;
            let floats = out.into_iter().map(f32::from_bits);
            let largest = floats.filter(|x| !x.is_nan()).max_by(f32::total_cmp)?;
            Some(format!("{:08X}", largest.to_bits()))
        }
    }
}
