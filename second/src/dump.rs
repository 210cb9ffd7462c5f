//! The listing with why bytes were skipped, with all that data chunks show,
//! with texts, and with the number of a file's start.

use std::fmt::{Display, UpperHex, Write};

use crate::body::Body;
use crate::kind::Width;
use crate::list::{line, listing};
use crate::reader::{Item, Verdict};
use crate::samples::Ready;
use crate::state::State;

pub fn dump(bytes: &[u8]) -> String {
    listing(bytes, |item, text| match item {
        Item::Skipped { cause, .. } => line(text, format_args!("  cause {}", cause.word())),
        Item::Unfinished { .. } => {}
        Item::Chunk { verdict, .. } => dump_chunk(text, verdict),
    })
}

fn dump_chunk(text: &mut String, verdict: &Verdict) {
    match verdict {
        Verdict::Waits { time, .. } => line(text, format_args!("  time {time}")),
        Verdict::Ready(ready) => dump_ready(text, ready),
        Verdict::Plain(Body::Text(note)) => dump_text(text, note),
        Verdict::Plain(Body::FileStart(number)) => line(text, format_args!("  value {number}")),
        Verdict::Unknown | Verdict::Malformed(_) | Verdict::NoCover | Verdict::Plain(_) => {}
    }
}

/// The characters of a text as they stand. Control characters could break the
/// line or change how it looks, so they stand as `\x` and the two hex digits of
/// their number; so does the backslash, to be told from these.
fn dump_text(text: &mut String, note: &str) {
    text.push_str("  text ");
    for character in note.chars() {
        match character {
            '\0'..='\x1F' | '\x7F'..='\u{9F}' | '\\' => {
                let _ = write!(text, "\\x{:02X}", u32::from(character));
            }
            _ => text.push(character),
        }
    }
    text.push('\n');
}

fn dump_ready(text: &mut String, ready: &Ready) {
    line(text, format_args!("  time {}", ready.time));
    line(text, format_args!("  mark {}", u8::from(ready.start)));
    dump_state(text, &ready.state);
    for channel in 0..ready.channels() {
        dump_samples(text, ready, channel);
    }
}

/// One line for each value and each sum that is present.
fn dump_state(text: &mut String, state: &State) {
    if let Some(packing) = state.single_packing {
        line(text, format_args!("  SIQP {}", packing.number()));
    }
    if let Some(rate) = state.sample_rate {
        line(text, format_args!("  SR__ {rate}"));
    }
    if let Some((bandwidth, offset)) = state.bandwidth {
        line(text, format_args!("  BW__ {bandwidth} {offset}"));
    }
    if let Some(bandwidth) = state.group_bandwidth {
        line(text, format_args!("  GCBW {bandwidth}"));
    }
    if let Some(frequency) = state.centre_frequency {
        line(text, format_args!("  CF__ {frequency}"));
    }
    for (name, level) in [
        ("dBFS", state.full_scale),
        ("dBTG", state.total_gain),
        ("FFS_", state.float_full_scale),
    ] {
        if let Some(pattern) = level {
            line(text, format_args!("  {name} {pattern:08X}"));
        }
    }
    if let Some(layout) = &state.group_packing {
        let _ = write!(
            text,
            "  GIQP {} {} {}",
            layout.channels(),
            layout.packing.number(),
            layout.increment
        );
        decimals(text, layout.offsets.values());
    }
    if let Some(list) = &state.group_frequencies {
        let _ = write!(text, "  GCF_ {}", list.channels());
        decimals(text, list.values());
    }
    if let Some(list) = &state.group_gains {
        let _ = write!(text, "  GRG_ {}", list.channels());
        patterns(text, list.values());
    }
    for (channel, sum) in state.group_sums.iter().enumerate() {
        if let Some(pattern) = sum {
            line(text, format_args!("  sum {channel} {pattern:08X}"));
        }
    }
}

fn dump_samples(text: &mut String, ready: &Ready, channel: usize) {
    let count = ready.numbers();
    let _ = write!(text, "  samples {channel} {count}");
    // The slices have the width and the room that a refusal would name.
    match ready.form.width {
        Width::Short => {
            let mut out = vec![0; count];
            let copied = ready.copy_shorts(channel, &mut out);
            assert_eq!(copied, Ok(count));
            decimals(text, &out);
        }
        Width::Float => {
            let mut out = vec![0; count];
            let copied = ready.copy_patterns(channel, &mut out);
            assert_eq!(copied, Ok(count));
            patterns(text, &out);
        }
    }
}

/// Ends the line with the numbers in decimal.
fn decimals<T: Display>(text: &mut String, numbers: &[T]) {
    for number in numbers {
        let _ = write!(text, " {number}");
    }
    text.push('\n');
}

/// Ends the line with 32-bit patterns in hex.
fn patterns<T: UpperHex>(text: &mut String, numbers: &[T]) {
    for number in numbers {
        let _ = write!(text, " {number:08X}");
    }
    text.push('\n');
}
