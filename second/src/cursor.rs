//! Cursors made at will, and what a step and a copy answer at them.
//!
//! The reader's own state cannot hold what the body table forbids. This one
//! can hold anything, so that number 3 has something to refuse.

use crate::body::{GroupPacking, Packing, PerChannel, MOST_CHANNELS};
use crate::order::Order;
use crate::reader::{Item, Reader, Verdict};
use crate::samples::{CopyRefusal, Ready};
use crate::state::State;
use crate::walk::Walk;

/// A value with a flag that says whether it is present.
#[derive(Clone, Copy, Debug, Default, PartialEq, Eq)]
pub struct Held<T> {
    pub present: bool,
    pub value: T,
}

/// What GIQP sets; absent where n is 0.
#[derive(Clone, Copy, Debug, Default, PartialEq, Eq)]
pub struct HeldGroup {
    pub n: usize,
    pub iq: bool,
    pub increment: u32,
    pub offsets: [u32; MOST_CHANNELS],
}

/// What GCF_ or GRG_ sets; absent where n is 0.
#[derive(Clone, Copy, Debug, Default, PartialEq, Eq)]
pub struct HeldList<T> {
    pub n: usize,
    pub values: [T; MOST_CHANNELS],
}

/// All values and the start mark, with nothing said of what they may be.
/// Floats stand as their patterns.
#[derive(Clone, Copy, Debug, Default, PartialEq, Eq)]
pub struct AnyState {
    pub packing: Held<i32>,
    pub rate: Held<i64>,
    /// The width and its offset.
    pub band: Held<(i64, i64)>,
    pub group_band: Held<i64>,
    pub centre: Held<i64>,
    pub full_scale: Held<u32>,
    pub total_gain: Held<u32>,
    pub float_scale: Held<u32>,
    pub group: HeldGroup,
    pub frequencies: HeldList<i64>,
    pub gains: HeldList<u32>,
    /// For each channel the sum of dBTG and its gain.
    pub sums: [Held<u32>; MOST_CHANNELS],
    pub mark: bool,
}

impl AnyState {
    /// Whether the body table allows every value that is present, and 0
    /// stands for every absent one and in every unused place of a list; and
    /// whether the sums are those of their parts. A float's 0 is the pattern 0,
    /// which -0 doesn't have.
    pub fn is_good(&self) -> bool {
        good(self.packing, |number| number == 0 || number == 1)
            && good(self.rate, |rate| rate >= 1)
            && good(self.band, |(width, _)| width >= 0)
            && good(self.group_band, |width| width >= 0)
            && good(self.centre, |_| true)
            && good(self.full_scale, is_finite)
            && good(self.total_gain, is_finite)
            && good(self.float_scale, |pattern| {
                is_finite(pattern) && f32::from_bits(pattern) > 0.0
            })
            && good_group(&self.group)
            && good_list(self.frequencies.n, &self.frequencies.values, |_| true)
            && good_list(self.gains.n, &self.gains.values, is_finite)
            && (0..MOST_CHANNELS).all(|channel| self.good_sum(channel))
    }

    /// Whether a channel's sum is there just if dBTG and a gain of the channel
    /// are and give a finite one, and then has its bits.
    fn good_sum(&self, channel: usize) -> bool {
        let gain = self.gains.values[channel];
        let sum = f32::from_bits(self.total_gain.value) + f32::from_bits(gain);
        let due = self.total_gain.present && channel < self.gains.n && sum.is_finite();
        let Held { present, value } = self.sums[channel];
        present == due && value == if due { sum.to_bits() } else { 0 }
    }

    /// A good state as the reader holds it.
    fn state(&self) -> State {
        let HeldGroup {
            n,
            iq,
            increment,
            offsets,
        } = self.group;
        State {
            single_packing: shown(self.packing).and_then(Packing::from_number),
            sample_rate: shown(self.rate),
            bandwidth: shown(self.band),
            group_bandwidth: shown(self.group_band),
            centre_frequency: shown(self.centre),
            full_scale: shown(self.full_scale),
            total_gain: shown(self.total_gain),
            float_full_scale: shown(self.float_scale),
            group_packing: listed(n, offsets).map(|offsets| GroupPacking {
                packing: if iq { Packing::Iq } else { Packing::Qi },
                increment,
                offsets,
            }),
            group_frequencies: listed(self.frequencies.n, self.frequencies.values),
            group_gains: listed(self.gains.n, self.gains.values),
            group_sums: self.sums.map(shown),
        }
    }
}

fn good<T: Default + PartialEq>(held: Held<T>, allowed: impl Fn(T) -> bool) -> bool {
    if held.present {
        allowed(held.value)
    } else {
        held.value == T::default()
    }
}

fn good_group(group: &HeldGroup) -> bool {
    let head = if group.n == 0 {
        !group.iq && group.increment == 0
    } else {
        group.increment == 1 || group.increment as usize == group.n
    };
    head && good_list(group.n, &group.offsets, |offset| offset <= i32::MAX as u32)
}

/// At most 16 places are used; the others hold 0.
fn good_list<T: Copy + Default + PartialEq>(
    n: usize,
    values: &[T; MOST_CHANNELS],
    allowed: impl Fn(T) -> bool,
) -> bool {
    n <= MOST_CHANNELS
        && values[..n].iter().all(|value| allowed(*value))
        && values[n..].iter().all(|value| *value == T::default())
}

fn is_finite(pattern: u32) -> bool {
    f32::from_bits(pattern).is_finite()
}

fn shown<T>(held: Held<T>) -> Option<T> {
    held.present.then_some(held.value)
}

fn listed<T: Copy + Default>(n: usize, values: [T; MOST_CHANNELS]) -> Option<PerChannel<T>> {
    (n > 0).then(|| PerChannel::from_values(values.into_iter().take(n)))
}

#[derive(Clone, Copy, Debug, PartialEq, Eq)]
pub struct Cursor {
    pub place: usize,
    pub in_step: bool,
    pub state: AnyState,
}

/// An item, none at the end, and where the cursor then stands.
#[derive(Clone, Debug)]
pub struct Step<'a> {
    pub item: Option<Item<'a>>,
    pub place: usize,
    pub in_step: bool,
}

impl Cursor {
    /// The next item; 2 past the end, and 3 in step with a state that isn't
    /// good. What a searching reader holds is never used, so it isn't asked.
    pub fn step<'a>(&self, order: Order, stream: &'a [u8]) -> Result<Step<'a>, u32> {
        if self.place > stream.len() {
            return Err(2);
        }
        if self.in_step && !self.state.is_good() {
            return Err(3);
        }
        let state = if self.in_step {
            self.state.state()
        } else {
            State::default()
        };
        let walk = Walk::at(order, stream, self.place, self.in_step);
        let mut reader = Reader::from(walk, state, self.state.mark);
        let item = reader.next();
        Ok(Step {
            item,
            place: reader.walk().place(),
            in_step: reader.walk().in_step(),
        })
    }

    /// The count of numbers copied out of the chunk at the cursor, or the
    /// number of the refusal.
    pub fn copy_shorts(
        &self,
        order: Order,
        stream: &[u8],
        channel: usize,
        out: &mut [i16],
    ) -> Result<usize, u32> {
        let ready = self.ready(order, stream)?;
        ready.copy_shorts(channel, out).map_err(CopyRefusal::number)
    }

    /// The same of patterns.
    pub fn copy_patterns(
        &self,
        order: Order,
        stream: &[u8],
        channel: usize,
        out: &mut [u32],
    ) -> Result<usize, u32> {
        let ready = self.ready(order, stream)?;
        ready
            .copy_patterns(channel, out)
            .map_err(CopyRefusal::number)
    }

    /// The ready chunk at the cursor, of either width.
    fn ready<'a>(&self, order: Order, stream: &'a [u8]) -> Result<Ready<'a>, u32> {
        match self.step(order, stream)?.item {
            Some(Item::Chunk {
                verdict: Verdict::Ready(ready),
                ..
            }) => Ok(ready),
            _ => Err(CopyRefusal::Width.number()),
        }
    }
}
