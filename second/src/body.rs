//! What well-formed bodies hold, and the faults of the others.

use crate::kind::DataForm;

/// The largest number of channels in a group.
pub const MOST_CHANNELS: usize = 16;

/// Why a body is malformed.
#[derive(Clone, Copy, Debug, PartialEq, Eq, PartialOrd, Ord)]
pub enum Fault {
    Size,
    Value,
    Count,
    Padding,
    Text,
}

impl Fault {
    pub const fn number(self) -> u32 {
        match self {
            Fault::Size => 11,
            Fault::Value => 12,
            Fault::Count => 13,
            Fault::Padding => 14,
            Fault::Text => 15,
        }
    }
}

/// Which number of a pair comes first in the body.
#[derive(Clone, Copy, Debug, PartialEq, Eq)]
pub enum Packing {
    Qi,
    Iq,
}

impl Packing {
    pub const fn from_number(number: i32) -> Option<Packing> {
        match number {
            0 => Some(Packing::Qi),
            1 => Some(Packing::Iq),
            _ => None,
        }
    }

    pub const fn number(self) -> u32 {
        match self {
            Packing::Qi => 0,
            Packing::Iq => 1,
        }
    }
}

/// One value for each channel of a group.
#[derive(Clone, Copy, Debug, PartialEq, Eq)]
pub struct PerChannel<T> {
    len: usize,
    values: [T; MOST_CHANNELS],
}

impl<T: Copy + Default> PerChannel<T> {
    /// Takes at most as many values as a group may have channels.
    pub fn from_values(values: impl IntoIterator<Item = T>) -> Self {
        let mut list = PerChannel {
            len: 0,
            values: [T::default(); MOST_CHANNELS],
        };
        for (slot, value) in list.values.iter_mut().zip(values) {
            *slot = value;
            list.len += 1;
        }
        list
    }
}

impl<T> PerChannel<T> {
    pub fn values(&self) -> &[T] {
        &self.values[..self.len]
    }

    pub fn channels(&self) -> usize {
        self.len
    }
}

/// How the pairs of a group chunk are laid out.
#[derive(Clone, Copy, Debug, PartialEq, Eq)]
pub struct GroupPacking {
    pub packing: Packing,
    /// 1 or the number of channels.
    pub increment: u32,
    /// For each channel the pair where it starts.
    pub offsets: PerChannel<u32>,
}

impl GroupPacking {
    pub fn channels(&self) -> usize {
        self.offsets.channels()
    }
}

/// The three kinds of level, each with the bit pattern of a finite float.
#[derive(Clone, Copy, Debug, PartialEq, Eq)]
pub enum Level {
    FullScale(u32),
    TotalGain(u32),
    FloatFullScale(u32),
}

/// A well-formed body.
#[derive(Clone, Copy, Debug, PartialEq, Eq)]
pub enum Body<'a> {
    Data {
        form: DataForm,
        time: i64,
        samples: &'a [u8],
    },
    SinglePacking(Packing),
    SampleRate(i64),
    /// From BW__, whose offset is 0, or BWOF.
    Bandwidth {
        bandwidth: i64,
        offset: i64,
    },
    GroupBandwidth(i64),
    CentreFrequency(i64),
    Level(Level),
    GroupPacking(GroupPacking),
    GroupFrequencies(PerChannel<i64>),
    GroupGains(PerChannel<u32>),
    FileStart(i32),
    HeaderEnd,
    Discontinuity,
    Text(&'a str),
}
