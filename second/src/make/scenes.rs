//! Scenes about state, readiness and bodies.

use super::Maker;
use crate::body::Fault;
use crate::kind::Kind;
use crate::possible::{faults, lacks};
use crate::state::Lack;
use crate::utf8;
use crate::values;

/// The kinds that set values; BWOF takes the place of BW__ at times.
const SETTERS: [Kind; 11] = [
    Kind::Siqp,
    Kind::Sr,
    Kind::Bw,
    Kind::Gcbw,
    Kind::Cf,
    Kind::Dbfs,
    Kind::Dbtg,
    Kind::Ffs,
    Kind::Giqp,
    Kind::Gcf,
    Kind::Grg,
];

impl Maker {
    /// Sets every value, in any order, and gives the pairs that a group chunk
    /// must have to be covered.
    fn full_state(&mut self) -> usize {
        let layout = self.layout();
        let channels = layout.offsets.len();
        let mut setters = SETTERS;
        self.rng.shuffle(&mut setters);
        for kind in setters {
            match kind {
                Kind::Giqp => self.layout_chunk(&layout),
                Kind::Gcf => self.frequencies(channels),
                Kind::Grg => self.gains(channels),
                Kind::Bw if self.rng.chance(2) => self.good(Kind::Bwof),
                _ => self.good(kind),
            }
        }
        layout.pairs
    }

    /// Anything after anything.
    pub(super) fn soup(&mut self, _turn: usize) {
        let pieces = 3 + self.rng.below(25);
        for _ in 0..pieces {
            let kind = self.rng.pick(&Kind::ALL);
            match self.rng.below(20) {
                0..=8 => self.good(kind),
                9..=11 => self.bad_somehow(kind),
                12..=14 => {
                    let pairs = self.rng.below(6);
                    self.any_data(pairs);
                }
                15 => self.unknown(),
                16 => self.gap(),
                17 => self.cut_chunk(),
                18 => {
                    let pairs = self.full_state();
                    self.any_data(pairs);
                }
                _ => {
                    self.good(Kind::Sr);
                    self.good(Kind::Siqp);
                }
            }
        }
    }

    /// Each data kind from nothing to ready, one needed value at a time, the
    /// first lack filled first or last.
    pub(super) fn lacks(&mut self, _turn: usize) {
        let mut kinds = Kind::DATA;
        self.rng.shuffle(&mut kinds);
        for kind in kinds {
            self.gap();
            let layout = self.layout();
            let group = kind == Kind::Gsnc || kind == Kind::Gfnc;
            let pairs = if group {
                layout.pairs
            } else {
                self.rng.below(5)
            };
            let mut needs = lacks(kind);
            if self.rng.chance(3) {
                needs.reverse();
            }
            self.data(kind, pairs);
            for need in needs {
                match need {
                    Lack::Packing if group => self.layout_chunk(&layout),
                    Lack::Packing => self.good(Kind::Siqp),
                    Lack::SampleRate => self.good(Kind::Sr),
                    Lack::FloatFullScale => self.good(Kind::Ffs),
                }
                self.data(kind, pairs);
            }
        }
    }

    /// Ready data chunks of all kinds with a full state.
    pub(super) fn ready(&mut self, _turn: usize) {
        let pairs = self.full_state();
        for kind in Kind::DATA {
            let group = kind.data_form().is_some_and(|form| form.group);
            let count = if group { pairs } else { self.rng.below(9) };
            self.data(kind, count);
        }
    }

    /// A few malformed chunks, all pairs of kind and fault in the course of
    /// the turns, each after a full state and with data after it.
    pub(super) fn faults(&mut self, turn: usize) {
        const EACH: usize = 5;
        let all: Vec<(Kind, Fault)> = Kind::ALL
            .into_iter()
            .flat_map(|kind| faults(kind).iter().map(move |fault| (kind, *fault)))
            .collect();
        for i in 0..EACH {
            let (kind, fault) = all[(turn * EACH + i) % all.len()];
            let pairs = self.full_state();
            if self.rng.chance(2) {
                self.good(Kind::Ssnr);
            }
            self.bad(kind, fault);
            self.good(Kind::Ssnr);
            self.any_data(pairs);
        }
    }

    /// Step lost and regained, with only some values sent again.
    pub(super) fn regained(&mut self, _turn: usize) {
        let pairs = self.full_state();
        self.any_data(pairs);
        self.any_data(pairs);
        for _ in 0..3 {
            self.gap();
            for kind in SETTERS {
                if self.rng.chance(2) {
                    self.good(kind);
                }
            }
            self.good(Kind::Sr);
            if self.rng.chance(2) {
                self.unknown();
            }
            self.good(Kind::Ssnr);
            self.good(Kind::Cf);
            self.good(Kind::Ssnr);
        }
        let pairs = self.full_state();
        self.any_data(pairs);
    }

    /// Texts, good and with every fault.
    pub(super) fn texts(&mut self, _turn: usize) {
        for _ in 0..6 {
            self.good(Kind::Text);
            self.bad_somehow(Kind::Text);
            let most = self.rng.below(12);
            let text = String::from_utf8_lossy(&utf8::damaged(&mut self.rng, most)).into_owned();
            self.out.text(&text);
        }
        self.bad(Kind::Text, Fault::Text);
    }

    /// BWOF, BW__ and GCBW after each other, and what data chunks then show.
    pub(super) fn bandwidths(&mut self, _turn: usize) {
        self.good(Kind::Sr);
        let offset = values::long(&mut self.rng) | 1;
        self.out.bandwidth_offset(1000, offset);
        self.good(Kind::Ssnr);
        self.good(Kind::Bw);
        self.good(Kind::Ssnr);
        for _ in 0..8 {
            let kind = self.rng.pick(&[Kind::Bw, Kind::Bwof, Kind::Gcbw]);
            if self.rng.chance(3) {
                self.bad_somehow(kind);
            } else {
                self.good(kind);
            }
            self.good(Kind::Ssnr);
        }
    }

    /// The start mark: set in every way, and left alone by what doesn't.
    pub(super) fn marks(&mut self, _turn: usize) {
        let mut pairs = self.full_state();
        for _ in 0..12 {
            match self.rng.below(9) {
                0 | 1 => self.good(Kind::Iqdc),
                2 => self.bad(Kind::Iqdc, Fault::Size),
                3 => {
                    let kind = self.rng.pick(&Kind::DATA);
                    self.bad(kind, Fault::Size);
                }
                4 => self.data(Kind::Gsnc, pairs + 1),
                5 => {
                    // Waits until the packing is sent again.
                    self.bad_somehow(Kind::Siqp);
                    self.good(Kind::Ssnc);
                    self.good(Kind::Siqp);
                }
                6 => self.unknown(),
                7 => {
                    self.gap();
                    pairs = self.full_state();
                }
                _ => {}
            }
            self.any_data(pairs);
            if self.rng.chance(2) {
                self.any_data(pairs);
            }
        }
    }
}
