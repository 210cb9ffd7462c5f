//! The values that chunks set and data chunks are read with.

use crate::body::{Body, GroupPacking, Level, Packing, PerChannel, MOST_CHANNELS};
use crate::kind::{DataForm, Kind, Width};

/// Each value is absent until a well-formed chunk sets it.
#[derive(Clone, Copy, Debug, Default, PartialEq, Eq)]
pub struct State {
    pub single_packing: Option<Packing>,
    pub sample_rate: Option<i64>,
    /// Bandwidth and its offset; they come and go together.
    pub bandwidth: Option<(i64, i64)>,
    pub group_bandwidth: Option<i64>,
    pub centre_frequency: Option<i64>,
    pub full_scale: Option<u32>,
    pub total_gain: Option<u32>,
    pub float_full_scale: Option<u32>,
    pub group_packing: Option<GroupPacking>,
    pub group_frequencies: Option<PerChannel<i64>>,
    pub group_gains: Option<PerChannel<u32>>,
    /// For each channel dBTG plus its gain, where both are present and their
    /// sum is finite. `set` and `remove` keep them to their parts.
    pub group_sums: [Option<u32>; MOST_CHANNELS],
}

/// What a well-formed data chunk waits for.
#[derive(Clone, Copy, Debug, PartialEq, Eq, PartialOrd, Ord)]
pub enum Lack {
    Packing,
    SampleRate,
    FloatFullScale,
}

impl Lack {
    pub const fn number(self) -> u32 {
        match self {
            Lack::Packing => 21,
            Lack::SampleRate => 22,
            Lack::FloatFullScale => 23,
        }
    }
}

impl State {
    /// Takes the values of a well-formed chunk.
    pub fn set(&mut self, body: &Body) {
        match *body {
            Body::SinglePacking(packing) => self.single_packing = Some(packing),
            Body::SampleRate(rate) => self.sample_rate = Some(rate),
            Body::Bandwidth { bandwidth, offset } => self.bandwidth = Some((bandwidth, offset)),
            Body::GroupBandwidth(bandwidth) => self.group_bandwidth = Some(bandwidth),
            Body::CentreFrequency(frequency) => self.centre_frequency = Some(frequency),
            Body::Level(Level::FullScale(level)) => self.full_scale = Some(level),
            Body::Level(Level::TotalGain(gain)) => {
                self.total_gain = Some(gain);
                self.add_up();
            }
            Body::Level(Level::FloatFullScale(level)) => self.float_full_scale = Some(level),
            Body::GroupPacking(packing) => self.group_packing = Some(packing),
            Body::GroupFrequencies(list) => self.group_frequencies = Some(list),
            Body::GroupGains(list) => {
                self.group_gains = Some(list);
                self.add_up();
            }
            Body::Data { .. }
            | Body::FileStart(_)
            | Body::HeaderEnd
            | Body::Discontinuity
            | Body::Text(_) => {}
        }
    }

    /// Drops what a chunk of this kind would have set: after a malformed one
    /// the old value can no longer be trusted.
    pub fn remove(&mut self, kind: Kind) {
        match kind {
            Kind::Siqp => self.single_packing = None,
            Kind::Sr => self.sample_rate = None,
            Kind::Bw | Kind::Bwof => self.bandwidth = None,
            Kind::Gcbw => self.group_bandwidth = None,
            Kind::Cf => self.centre_frequency = None,
            Kind::Dbfs => self.full_scale = None,
            Kind::Dbtg => {
                self.total_gain = None;
                self.add_up();
            }
            Kind::Ffs => self.float_full_scale = None,
            Kind::Giqp => self.group_packing = None,
            Kind::Gcf => self.group_frequencies = None,
            Kind::Grg => {
                self.group_gains = None;
                self.add_up();
            }
            Kind::Ssnc
            | Kind::Ssnr
            | Kind::Sfnc
            | Kind::Sfnr
            | Kind::Gsnc
            | Kind::Gfnc
            | Kind::Sofh
            | Kind::Eofh
            | Kind::Iqdc
            | Kind::Text => {}
        }
    }

    /// Makes the sums anew. Each is one addition of floats, rounded once.
    fn add_up(&mut self) {
        self.group_sums = [None; MOST_CHANNELS];
        if let (Some(total), Some(gains)) = (self.total_gain, &self.group_gains) {
            for (slot, gain) in self.group_sums.iter_mut().zip(gains.values()) {
                let sum = f32::from_bits(total) + f32::from_bits(*gain);
                *slot = sum.is_finite().then_some(sum.to_bits());
            }
        }
    }

    /// The first thing a data chunk of this form lacks.
    pub fn lack(&self, form: DataForm) -> Option<Lack> {
        let packed = match (form.complex, form.group) {
            (false, _) => true,
            (true, false) => self.single_packing.is_some(),
            (true, true) => self.group_packing.is_some(),
        };
        if !packed {
            Some(Lack::Packing)
        } else if self.sample_rate.is_none() {
            Some(Lack::SampleRate)
        } else if form.width == Width::Float && self.float_full_scale.is_none() {
            Some(Lack::FloatFullScale)
        } else {
            None
        }
    }

    /// The state as a group chunk shows it: lists made for another number of
    /// channels don't belong to it, nor do sums with such gains.
    pub fn shown_in_group(&self, channels: usize) -> State {
        let group_gains = self.group_gains.filter(|list| list.channels() == channels);
        State {
            group_frequencies: self
                .group_frequencies
                .filter(|list| list.channels() == channels),
            group_gains,
            group_sums: match group_gains {
                Some(_) => self.group_sums,
                None => [None; MOST_CHANNELS],
            },
            ..*self
        }
    }
}
