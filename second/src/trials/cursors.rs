//! Steps and copies at cursors made at will: in step and searching, in the
//! stream and past it, with states that are good and that aren't.

use super::{Digest, Met, PATTERN, ROOM, SHORT};
use crate::body::MOST_CHANNELS;
use crate::cursor::{AnyState, Cursor, Held, HeldGroup, HeldList};
use crate::order::Order;
use crate::reader::{Item, Verdict, NO_COVER};
use crate::walk::Cause;

const MINUS_ZERO: u32 = 0x8000_0000;
const INFINITE: u32 = 0x7F80_0000;
const NAN: u32 = 0x7FC0_0000;
const ONE: u32 = 0x3F80_0000;

/// A step and a copy of each width, for every state, in step and searching,
/// at each place.
pub fn digest(order: Order, stream: &[u8], met: &mut Met) -> u64 {
    let mut digest = Digest::new();
    let len = stream.len();
    for state in states() {
        for in_step in [true, false] {
            for place in [0, len / 2, len, len + 1] {
                let cursor = Cursor {
                    place,
                    in_step,
                    state,
                };
                step(&cursor, order, stream, &mut digest, met);
                copies(&cursor, order, stream, &mut digest, met);
            }
        }
    }
    digest.0
}

/// The item or the refusal, and the cursor that comes back: as it came, if it
/// is refused.
fn step(cursor: &Cursor, order: Order, stream: &[u8], digest: &mut Digest, met: &mut Met) {
    let (place, in_step) = match cursor.step(order, stream) {
        Err(number) => {
            met.answer("step", &number.to_string());
            digest.add_refusal(number);
            (cursor.place, cursor.in_step)
        }
        Ok(step) => {
            let word = if step.item.is_some() { "item" } else { "end" };
            met.answer("step", word);
            for number in numbers(&step.item) {
                digest.add(number);
            }
            (step.place, step.in_step)
        }
    };
    digest.add(place as u64);
    digest.add(in_step.into());
}

/// An item as a tag and its numbers.
fn numbers(item: &Option<Item>) -> Vec<u64> {
    match item {
        None => vec![0],
        Some(Item::Skipped { place, len, cause }) => {
            let cause = match cause {
                Cause::WasSearching => 0,
                Cause::SyncMissing => 1,
                Cause::SizePastLimit => 2,
                Cause::SizePartWord => 3,
            };
            vec![1, *place as u64, *len as u64, cause]
        }
        Some(Item::Unfinished { place, len }) => vec![2, *place as u64, *len as u64],
        Some(Item::Chunk { frame, verdict, .. }) => {
            let verdict = match verdict {
                Verdict::Plain(_) => 0,
                Verdict::Unknown => 1,
                Verdict::Ready(_) => 2,
                Verdict::Malformed(fault) => fault.number(),
                Verdict::NoCover => NO_COVER,
                Verdict::Waits { lack, .. } => lack.number(),
            };
            vec![
                3,
                frame.place as u64,
                frame.code.into(),
                frame.size as u64,
                verdict.into(),
            ]
        }
    }
}

/// Channel 0 in both widths.
fn copies(cursor: &Cursor, order: Order, stream: &[u8], digest: &mut Digest, met: &mut Met) {
    let mut shorts = [SHORT; ROOM];
    let mut patterns = [PATTERN; ROOM];
    let answers = [
        cursor.copy_shorts(order, stream, 0, &mut shorts),
        cursor.copy_patterns(order, stream, 0, &mut patterns),
    ];
    digest.add_copies(answers, shorts, patterns, met);
}

fn present<T>(value: T) -> Held<T> {
    Held {
        present: true,
        value,
    }
}

/// What no state may hold, unless the value is 0.
fn absent<T>(value: T) -> Held<T> {
    Held {
        present: false,
        value,
    }
}

/// A list whose places from the n-th on may hold something, too.
fn list<T: Copy + Default>(n: usize, values: &[(usize, T)]) -> HeldList<T> {
    let mut list = HeldList {
        n,
        ..Default::default()
    };
    for (place, value) in values {
        list.values[*place] = *value;
    }
    list
}

fn group(n: usize, iq: bool, increment: u32, offsets: &[(usize, u32)]) -> HeldGroup {
    HeldGroup {
        n,
        iq,
        increment,
        offsets: list(n, offsets).values,
    }
}

/// A sum for each of the first channels, where there is one.
fn sums(values: &[Option<f32>]) -> [Held<u32>; MOST_CHANNELS] {
    let mut sums = [absent(0); MOST_CHANNELS];
    for (sum, value) in sums.iter_mut().zip(values) {
        if let Some(value) = value {
            *sum = present(value.to_bits());
        }
    }
    sums
}

/// A good state in which every value is present.
fn full() -> AnyState {
    AnyState {
        packing: present(1),
        rate: present(48_000_000_000),
        band: present((1000, -5)),
        group_band: present(7),
        centre: present(-9),
        full_scale: present((-3.5f32).to_bits()),
        total_gain: present(20.0f32.to_bits()),
        float_scale: present(ONE),
        group: group(2, true, 2, &[(1, 1)]),
        frequencies: list(2, &[(0, 5), (1, -5)]),
        gains: list(2, &[(0, 1.5f32.to_bits()), (1, MINUS_ZERO)]),
        sums: sums(&[Some(21.5), Some(20.0)]),
        mark: true,
    }
}

/// The full state with a change.
fn with(change: &dyn Fn(&mut AnyState)) -> AnyState {
    let mut state = full();
    change(&mut state);
    state
}

/// The full state with another dBTG, other gains and other sums.
fn added(total: f32, gains: &[f32], values: &[Option<f32>]) -> AnyState {
    let gains: Vec<(usize, u32)> = gains
        .iter()
        .map(|gain| gain.to_bits())
        .enumerate()
        .collect();
    AnyState {
        total_gain: present(total.to_bits()),
        gains: list(gains.len(), &gains),
        sums: sums(values),
        ..full()
    }
}

fn states() -> Vec<AnyState> {
    [values_at_will(), wrong_sums(), right_sums()].concat()
}

/// The full state and the empty one; the full one with one value that no
/// state may hold; and it with one at the edge of what a state may hold.
fn values_at_will() -> Vec<AnyState> {
    let sixteen: Vec<(usize, u32)> = (0..16).map(|c| (c, c as u32)).collect();
    vec![
        full(),
        AnyState::default(),
        with(&|s| s.packing = present(2)),
        with(&|s| s.packing = present(-1)),
        with(&|s| s.packing = absent(1)),
        with(&|s| s.rate = present(0)),
        with(&|s| s.rate = absent(1)),
        with(&|s| s.band = present((-1, -5))),
        with(&|s| s.band = absent((1, 0))),
        with(&|s| s.band = absent((0, 1))),
        with(&|s| s.group_band = present(-1)),
        with(&|s| s.group_band = absent(1)),
        with(&|s| s.centre = absent(1)),
        with(&|s| s.full_scale = present(INFINITE)),
        with(&|s| s.full_scale = absent(MINUS_ZERO)),
        with(&|s| s.total_gain = present(NAN)),
        with(&|s| s.total_gain = absent(ONE)),
        with(&|s| s.float_scale = present(0)),
        with(&|s| s.float_scale = present((-1.0f32).to_bits())),
        with(&|s| s.float_scale = present(INFINITE)),
        with(&|s| s.float_scale = absent(ONE)),
        with(&|s| s.group = group(17, true, 1, &[(1, 1)])),
        with(&|s| s.group = group(2, true, 3, &[(1, 1)])),
        with(&|s| s.group = group(2, true, 0, &[(1, 1)])),
        with(&|s| s.group = group(2, true, 2, &[(0, 1 << 31), (1, 1)])),
        with(&|s| s.group = group(2, true, 2, &[(1, 1), (5, 1)])),
        with(&|s| s.group = group(0, true, 0, &[])),
        with(&|s| s.group = group(0, false, 1, &[])),
        with(&|s| s.group = group(0, false, 0, &[(0, 1)])),
        with(&|s| s.frequencies.n = 17),
        with(&|s| s.frequencies.values[15] = 1),
        with(&|s| s.frequencies = list(0, &[(0, 5)])),
        with(&|s| s.gains.n = 17),
        with(&|s| s.gains.values[1] = INFINITE),
        with(&|s| s.gains.values[15] = MINUS_ZERO),
        with(&|s| s.gains = list(0, &[(0, ONE)])),
        with(&|s| s.float_scale = present(1)),
        with(&|s| s.group.increment = 1),
        with(&|s| s.group.offsets[1] = i32::MAX as u32),
        with(&|s| s.group = group(16, true, 16, &sixteen)),
        with(&|s| s.full_scale = present(MINUS_ZERO)),
    ]
}

/// Sums that aren't those of their parts: a stale one, one too few, one too
/// many, -0 in place of 0, a part that is absent, and some that aren't finite.
fn wrong_sums() -> Vec<AnyState> {
    let (max, min) = (f32::MAX, f32::MIN);
    vec![
        with(&|s| s.sums[0] = present(21.0f32.to_bits())),
        with(&|s| s.sums[0] = absent(0)),
        with(&|s| s.sums[2] = present(20.0f32.to_bits())),
        with(&|s| s.sums[2] = absent(MINUS_ZERO)),
        added(20.0, &[1.5, -20.0], &[Some(21.5), Some(-0.0)]),
        with(&|s| s.total_gain = absent(0)),
        added(max, &[max, min], &[Some(f32::INFINITY), Some(0.0)]),
        with(&|s| s.sums[1] = present(NAN)),
        with(&|s| s.sums[15] = present(20.0f32.to_bits())),
        with(&|s| s.gains = list(0, &[])),
    ]
}

/// Sums at the edges of what floats add up to, and none where a part is
/// absent.
fn right_sums() -> Vec<AnyState> {
    let (max, min, least) = (f32::MAX, f32::MIN, f32::from_bits(1));
    let sixteen: Vec<f32> = (0..16u8).map(f32::from).collect();
    let from_twenty: Vec<Option<f32>> = (20..36u8).map(|sum| Some(sum.into())).collect();
    vec![
        added(20.0, &[1.5, -20.0], &[Some(21.5), Some(0.0)]),
        added(-0.0, &[1.5, -0.0], &[Some(1.5), Some(-0.0)]),
        added(max, &[max, min], &[None, Some(0.0)]),
        added(
            least,
            &[least, 0.0],
            &[Some(f32::from_bits(2)), Some(least)],
        ),
        with(&|s| (s.total_gain, s.sums) = (absent(0), sums(&[]))),
        with(&|s| (s.gains, s.sums) = (list(0, &[]), sums(&[]))),
        // Both lie in the middle of two floats, and the even one is taken.
        added(
            16_777_216.0,
            &[1.0, 3.0],
            &[Some(16_777_216.0), Some(16_777_220.0)],
        ),
        added(20.0, &sixteen, &from_twenty),
    ]
}

#[cfg(test)]
mod tests {
    use super::*;

    #[test]
    fn which_states_are_good() {
        let good: Vec<bool> = states().iter().map(AnyState::is_good).collect();
        assert_eq!(good.len(), 59);
        for (i, good) in good.into_iter().enumerate() {
            let expected = matches!(i, 0 | 1 | 36..=40 | 51..=58);
            assert_eq!(good, expected, "state {i}");
        }
    }
}
