//! Group layouts that cover their chunks, and some that don't; and the sums of
//! a group's gains.

use super::{bodies, Maker};
use crate::kind::Kind;
use crate::values;

/// A layout and a number of pairs for it.
#[derive(Clone, Debug)]
pub struct Layout {
    pub increment: i32,
    pub offsets: Vec<i32>,
    pub pairs: usize,
}

impl Maker {
    /// A layout that covers.
    pub(super) fn layout(&mut self) -> Layout {
        let channels = values::channels(&mut self.rng);
        let each = 1 + self.rng.below(3);
        let runs = self.rng.chance(2);
        let spacing = if runs { each } else { 1 };
        let mut offsets: Vec<i32> = (0..channels).map(|c| (c * spacing) as i32).collect();
        if self.rng.chance(2) {
            self.rng.shuffle(&mut offsets);
        }
        Layout {
            increment: if runs { 1 } else { channels as i32 },
            offsets,
            pairs: channels * each,
        }
    }

    /// A layout with something changed, after which most no longer cover.
    fn odd_layout(&mut self, turn: usize) -> Layout {
        let mut layout = self.layout();
        let last = layout.offsets.len() - 1;
        match turn % 9 {
            0 => layout.offsets[last] = layout.offsets[0],
            1 => layout.offsets.iter_mut().for_each(|o| *o += 1),
            2 => layout.offsets[self.rng.below(last + 1)] = i32::MAX,
            3 => layout.pairs += 1,
            4 => {
                layout.pairs = 0;
                layout.offsets[last] = values::int(&mut self.rng) & i32::MAX;
            }
            5 => layout.pairs *= 2,
            6 => {
                let channels = last as i32 + 1;
                layout.increment = if layout.increment == 1 { channels } else { 1 };
            }
            7 => layout.pairs -= 1,
            _ => {}
        }
        layout
    }

    pub(super) fn layout_chunk(&mut self, layout: &Layout) {
        let packing = self.rng.below(2) as i32;
        self.out
            .group_packing(packing, layout.increment, &layout.offsets);
    }

    pub(super) fn frequencies(&mut self, channels: usize) {
        let body = bodies::frequencies(&mut self.rng, self.out.order(), channels);
        self.out.chunk(Kind::Gcf, &body);
    }

    pub(super) fn gains(&mut self, channels: usize) {
        let body = bodies::gains(&mut self.rng, self.out.order(), channels);
        self.out.chunk(Kind::Grg, &body);
    }

    /// Layouts one after the other, with lists of their number of channels or
    /// of another.
    pub(super) fn groups(&mut self, turn: usize) {
        self.good(Kind::Sr);
        self.good(Kind::Ffs);
        self.good(Kind::Dbtg);
        for i in 0..5 {
            let layout = if i % 2 == 0 {
                self.layout()
            } else {
                self.odd_layout(2 * turn + i / 2)
            };
            self.layout_chunk(&layout);
            for list in [Maker::frequencies, Maker::gains] {
                let channels = match self.rng.below(3) {
                    0 => values::channels(&mut self.rng),
                    _ => layout.offsets.len(),
                };
                if !self.rng.chance(3) {
                    list(self, channels);
                }
            }
            let kind = self.rng.pick(&[Kind::Gsnc, Kind::Gfnc]);
            self.data(kind, layout.pairs);
            if self.rng.chance(3) {
                // A single kind shows the lists whatever their length.
                self.good(Kind::Ssnr);
            }
        }
    }

    /// dBTG and gains set, replaced, removed and lost, and what a group chunk
    /// and a single one then show.
    pub(super) fn sums(&mut self, _turn: usize) {
        let layout = self.layout();
        let channels = layout.offsets.len();
        self.good(Kind::Sr);
        self.layout_chunk(&layout);
        self.good(Kind::Dbtg);
        self.gains(channels);
        for _ in 0..7 {
            // Any layout covers a chunk without pairs.
            self.data(Kind::Gsnc, 0);
            self.data(Kind::Ssnr, 0);
            match self.rng.below(10) {
                0..=2 => self.good(Kind::Dbtg),
                3..=5 => self.gains(channels),
                // Most often for another number of channels.
                6 => self.good(Kind::Grg),
                7 => self.bad_somehow(Kind::Dbtg),
                8 => self.bad_somehow(Kind::Grg),
                _ => {
                    self.gap();
                    self.good(Kind::Sr);
                    self.layout_chunk(&layout);
                }
            }
        }
        self.data(Kind::Gsnc, layout.pairs);
    }
}
