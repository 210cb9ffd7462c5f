//! The listing: one line for each item.

use std::fmt::Write;

use crate::frame::Frame;
use crate::kind::Kind;
use crate::reader::{Item, Reader, Verdict, NO_COVER};
use crate::search::find_order;

/// The most bytes a listing takes.
pub const MOST_BYTES: usize = 65_536;

/// The listing of a file's bytes. It is enough to hand in one byte more than
/// the limit of a longer file.
pub fn list(bytes: &[u8]) -> String {
    listing(bytes, |_, _| {})
}

/// The listing, with `detail` adding its lines under each item's line.
pub fn listing(bytes: &[u8], detail: impl Fn(&Item, &mut String)) -> String {
    if bytes.len() > MOST_BYTES {
        return "long\n".to_owned();
    }
    let Some(order) = find_order(bytes) else {
        return "none\n".to_owned();
    };
    let mut text = format!("pxgf {} {}\n", order.name(), bytes.len());
    let mut items = 0;
    for item in Reader::new(order, bytes) {
        items += 1;
        item_line(&mut text, &item);
        detail(&item, &mut text);
    }
    line(&mut text, format_args!("end {items}"));
    text
}

/// Adds a line; writing to a string can't fail.
pub fn line(text: &mut String, words: std::fmt::Arguments) {
    let _ = text.write_fmt(words);
    text.push('\n');
}

/// Adds the line of one item.
pub fn item_line(text: &mut String, item: &Item) {
    match item {
        Item::Skipped { place, len, .. } => line(text, format_args!("skip {place} {len}")),
        Item::Unfinished { place, len } => line(text, format_args!("cut {place} {len}")),
        Item::Chunk {
            frame,
            kind,
            verdict,
        } => chunk_line(text, *frame, *kind, verdict),
    }
}

fn chunk_line(text: &mut String, frame: Frame, kind: Option<Kind>, verdict: &Verdict) {
    let name = match kind {
        Some(kind) => kind.name().to_owned(),
        None => format!("{:08X}", frame.code),
    };
    let (word, number) = match verdict {
        Verdict::Unknown => ("unknown", None),
        Verdict::Plain(_) | Verdict::Ready(_) => ("ok", None),
        Verdict::Malformed(fault) => ("bad", Some(fault.number())),
        Verdict::NoCover => ("bad", Some(NO_COVER)),
        Verdict::Waits { lack, .. } => ("wait", Some(lack.number())),
    };
    let Frame { place, size, .. } = frame;
    match number {
        None => line(text, format_args!("chunk {place} {name} {size} {word}")),
        Some(number) => line(
            text,
            format_args!("chunk {place} {name} {size} {word} {number}"),
        ),
    }
}
