//! A ready data chunk, and copying the samples of one channel out of it.

use crate::body::Packing;
use crate::kind::{DataForm, Width};
use crate::order::Order;
use crate::state::State;

/// A data chunk with all that is needed to use its samples.
#[derive(Clone, Debug, PartialEq, Eq)]
pub struct Ready<'a> {
    pub order: Order,
    pub form: DataForm,
    pub time: i64,
    /// The start mark: these samples don't follow on from earlier ones.
    pub start: bool,
    /// The state as this chunk shows it.
    pub state: State,
    /// The body after the time.
    pub samples: &'a [u8],
}

#[derive(Clone, Copy, Debug, PartialEq, Eq)]
pub enum CopyRefusal {
    /// The chunk holds numbers of the other width.
    Width,
    Channel,
    /// The output is too short.
    Room,
}

impl CopyRefusal {
    pub const fn number(self) -> u32 {
        match self {
            CopyRefusal::Room => 33,
            CopyRefusal::Channel => 34,
            CopyRefusal::Width => 35,
        }
    }
}

/// Which numbers of the body belong to one channel, and how they are turned.
#[derive(Clone, Copy)]
enum Layout {
    Reals,
    Pairs {
        packing: Packing,
        first: usize,
        step: usize,
    },
}

impl Ready<'_> {
    pub fn channels(&self) -> usize {
        match &self.state.group_packing {
            Some(layout) if self.form.group => layout.channels(),
            _ => 1,
        }
    }

    /// The count of numbers in one channel, two for a pair.
    pub fn numbers(&self) -> usize {
        self.samples.len() / self.form.width.bytes() / self.channels()
    }

    /// Copies one channel of 16-bit numbers, I before Q, and gives their
    /// count. A refusal leaves the output as it was; so does the rest of an
    /// output longer than the samples.
    pub fn copy_shorts(&self, channel: usize, out: &mut [i16]) -> Result<usize, CopyRefusal> {
        let (layout, out) = self.prepare(Width::Short, channel, out)?;
        match self.order {
            Order::Big => copy(self.samples, layout, out, i16::from_be_bytes),
            Order::Little => copy(self.samples, layout, out, i16::from_le_bytes),
        }
        Ok(out.len())
    }

    /// The same for float kinds. Bit patterns are copied, not floats, so
    /// that every NaN comes through as it is.
    pub fn copy_patterns(&self, channel: usize, out: &mut [u32]) -> Result<usize, CopyRefusal> {
        let (layout, out) = self.prepare(Width::Float, channel, out)?;
        match self.order {
            Order::Big => copy(self.samples, layout, out, u32::from_be_bytes),
            Order::Little => copy(self.samples, layout, out, u32::from_le_bytes),
        }
        Ok(out.len())
    }

    fn prepare<'o, T>(
        &self,
        width: Width,
        channel: usize,
        out: &'o mut [T],
    ) -> Result<(Layout, &'o mut [T]), CopyRefusal> {
        if self.form.width != width {
            return Err(CopyRefusal::Width);
        }
        let layout = self.layout(channel).ok_or(CopyRefusal::Channel)?;
        let out = out.get_mut(..self.numbers()).ok_or(CopyRefusal::Room)?;
        Ok((layout, out))
    }

    fn layout(&self, channel: usize) -> Option<Layout> {
        if self.form.group {
            let layout = self.state.group_packing.as_ref()?;
            return Some(Layout::Pairs {
                packing: layout.packing,
                first: *layout.offsets.values().get(channel)? as usize,
                step: layout.increment as usize,
            });
        }
        if channel != 0 {
            return None;
        }
        if !self.form.complex {
            return Some(Layout::Reals);
        }
        Some(Layout::Pairs {
            packing: self.state.single_packing?,
            first: 0,
            step: 1,
        })
    }
}

/// Fills `out` from the numbers of W bytes that the layout picks. Runs are
/// copied in plain loops over slices, which the compiler can widen.
fn copy<const W: usize, T>(
    samples: &[u8],
    layout: Layout,
    out: &mut [T],
    number: impl Fn([u8; W]) -> T,
) {
    let numbers = samples.as_chunks::<W>().0;
    match layout {
        Layout::Reals => fill(out, numbers, number),
        Layout::Pairs {
            packing: Packing::Iq,
            first,
            step: 1,
        } => fill(out, numbers.get(2 * first..).unwrap_or_default(), number),
        Layout::Pairs {
            packing,
            first,
            step,
        } => {
            let pairs = numbers.as_chunks::<2>().0;
            let pairs = pairs.get(first..).unwrap_or_default();
            let out = out.as_chunks_mut::<2>().0;
            match (packing, step) {
                (Packing::Qi, 1) => {
                    for (to, [q, i]) in out.iter_mut().zip(pairs) {
                        *to = [number(*i), number(*q)];
                    }
                }
                (Packing::Qi, _) => {
                    for (to, [q, i]) in out.iter_mut().zip(pairs.iter().step_by(step)) {
                        *to = [number(*i), number(*q)];
                    }
                }
                (Packing::Iq, _) => {
                    for (to, [i, q]) in out.iter_mut().zip(pairs.iter().step_by(step)) {
                        *to = [number(*i), number(*q)];
                    }
                }
            }
        }
    }
}

fn fill<const W: usize, T>(out: &mut [T], numbers: &[[u8; W]], number: impl Fn([u8; W]) -> T) {
    for (to, from) in out.iter_mut().zip(numbers) {
        *to = number(*from);
    }
}
