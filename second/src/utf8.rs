//! Strings, good and damaged, and files of many of them.

use std::io::{self, Write};

use crate::pack;
use crate::rng::Rng;

/// Byte sequences that no UTF-8 text holds between two whole characters.
const DAMAGE: [&[u8]; 22] = [
    &[0xC0, 0x80], // overlong forms
    &[0xC1, 0xBF],
    &[0xE0, 0x80, 0x80],
    &[0xE0, 0x9F, 0xBF],
    &[0xF0, 0x80, 0x80, 0x80],
    &[0xF0, 0x8F, 0xBF, 0xBF],
    &[0xED, 0xA0, 0x80], // surrogates
    &[0xED, 0xAF, 0xBF],
    &[0xED, 0xB0, 0x80],
    &[0xED, 0xBF, 0xBF],
    &[0xF4, 0x90, 0x80, 0x80], // above U+10FFFF
    &[0xF5, 0x80, 0x80, 0x80],
    &[0xF7, 0xBF, 0xBF, 0xBF],
    &[0xF8, 0x88, 0x80, 0x80, 0x80], // five and six bytes
    &[0xFC, 0x84, 0x80, 0x80, 0x80, 0x80],
    &[0xFE],
    &[0xFF],
    &[0x80], // loose continuation
    &[0xBF],
    &[0xC3], // cut sequences
    &[0xE2, 0x82],
    &[0xF0, 0x9F, 0x98],
];

/// The first and last characters of each length, those about which a dump
/// does not show a character as it stands, and others.
const EDGES: [char; 20] = [
    '\0',
    '\n',
    '\u{1F}',
    ' ',
    '\\',
    '~',
    '\u{7F}',
    '\u{80}',
    '\u{85}',
    '\u{9F}',
    '\u{A0}',
    '\u{7FF}',
    '\u{800}',
    '\u{FFF}',
    '\u{D7FF}',
    '\u{E000}',
    '\u{FFFF}',
    '\u{10000}',
    '\u{FFFFF}',
    '\u{10FFFF}',
];

fn character(rng: &mut Rng) -> char {
    let below = match rng.below(8) {
        0 => return rng.pick(&EDGES),
        1 => 0x800,
        2 => 0x10000,
        3 => 0x11_0000,
        _ => return char::from(b' ' + rng.below(95) as u8),
    };
    // A surrogate is no character; take another one.
    char::from_u32(rng.below(below) as u32).unwrap_or('\u{20AC}')
}

/// Valid text of at most `most` bytes.
pub fn valid(rng: &mut Rng, most: usize) -> Vec<u8> {
    let mut text = String::new();
    loop {
        let next = character(rng);
        if text.len() + next.len_utf8() > most {
            return text.into_bytes();
        }
        text.push(next);
    }
}

/// Text with one sequence in it that makes it invalid.
pub fn damaged(rng: &mut Rng, most: usize) -> Vec<u8> {
    let before = rng.below(most + 1);
    let mut text = valid(rng, before);
    text.extend(rng.pick(&DAMAGE));
    text.extend(valid(rng, most - before));
    text
}

/// A string of some length, valid or not, from one of several recipes.
fn any(rng: &mut Rng) -> Vec<u8> {
    let most = if rng.chance(40) {
        rng.below(301)
    } else {
        rng.below(41)
    };
    match rng.below(10) {
        0..=2 => valid(rng, most),
        // Some room is left for the damage itself.
        3..=5 => damaged(rng, most.min(294)),
        6 => rng.bytes(most),
        7 => {
            let mut text: Vec<u8> = (0..most).map(|_| rng.byte() & 0x7F).collect();
            if let Some(place) = most.checked_sub(1).map(|last| rng.below(last + 1)) {
                text[place] |= 0x80;
            }
            text
        }
        8 => {
            let mut text = valid(rng, most);
            if !text.is_empty() {
                let place = rng.below(text.len());
                text[place] ^= 1 << rng.below(8);
            }
            text
        }
        _ => {
            let mut text = valid(rng, most);
            text.truncate(text.len().saturating_sub(rng.below(4)));
            text
        }
    }
}

/// Writes a file of `count` strings.
pub fn make_strings(seed: u64, count: usize, out: &mut impl Write) -> io::Result<()> {
    let mut rng = Rng::new(seed);
    pack::put_number(count, out)?;
    for _ in 0..count {
        pack::put_string(&any(&mut rng), out)?;
    }
    Ok(())
}

/// One character for each string of such a file, `1` if it is valid. None if
/// it is no such file.
pub fn judge_strings(file: &[u8]) -> Option<String> {
    let strings = pack::unpack(file)?;
    let judge = |text: &[u8]| match std::str::from_utf8(text) {
        Ok(_) => '1',
        Err(_) => '0',
    };
    Some(strings.into_iter().map(judge).collect())
}
