//! The pieces that scenes are made of.

use super::{bodies, Maker};
use crate::body::Fault;
use crate::kind::Kind;
use crate::order::Order;
use crate::possible::faults;

/// Sizes that are no good: over the limit, not whole words, or negative if
/// they were read as signed.
const BAD_SIZES: [u32; 12] = [
    69_636,
    6,
    1,
    2,
    3,
    69_633,
    0x8000_0000,
    0x8000_0004,
    0xFFFF_FFFC,
    0xFFFF_FFFF,
    0x7FFF_FFFC,
    0x0400_0000,
];

/// Types close to known ones, and others.
const UNKNOWN: [u32; 8] = [
    0x4142_4344,
    0x5353_4E44, // SSND
    0x4353_4E53, // SSNC, read in the wrong order
    0x7353_4E43, // sSNC
    0x4342_4653, // CBFS
    0,
    u32::MAX,
    0xA1B2_C3D4,
];

impl Maker {
    pub(super) fn order(&self) -> Order {
        self.out.order()
    }

    pub(super) fn good(&mut self, kind: Kind) {
        let body = bodies::good(&mut self.rng, self.out.order(), kind);
        self.out.chunk(kind, &body);
    }

    pub(super) fn bad(&mut self, kind: Kind, fault: Fault) {
        let body = bodies::bad(&mut self.rng, self.out.order(), kind, fault);
        self.out.chunk(kind, &body);
    }

    /// Malformed in one of the ways its kind can be.
    pub(super) fn bad_somehow(&mut self, kind: Kind) {
        let fault = self.rng.pick(faults(kind));
        self.bad(kind, fault);
    }

    pub(super) fn data(&mut self, kind: Kind, pairs: usize) {
        let body = bodies::data(&mut self.rng, self.out.order(), kind, pairs);
        self.out.chunk(kind, &body);
    }

    /// A data chunk of any kind; group kinds get the pairs their layout needs.
    pub(super) fn any_data(&mut self, group_pairs: usize) {
        let kind = self.rng.pick(&Kind::DATA);
        let group = kind.data_form().is_some_and(|form| form.group);
        let pairs = if group {
            group_pairs
        } else {
            self.rng.below(5)
        };
        self.data(kind, pairs);
    }

    pub(super) fn unknown(&mut self) {
        let code = self.rng.pick(&UNKNOWN);
        let words = self.rng.below(5);
        let body = self.rng.bytes(4 * words);
        self.out.chunk_of(code, &body);
    }

    /// Bytes that hold no sync word.
    pub(super) fn noise(&mut self) {
        let count = 1 + self.rng.below(9);
        for _ in 0..count {
            let byte = self.rng.byte() & 0x7F;
            self.out.raw(&[byte]);
        }
    }

    pub(super) fn bad_header(&mut self) {
        let kind = self.rng.pick(&Kind::ALL);
        let size = self.rng.pick(&BAD_SIZES);
        self.out.header(kind.code(), size);
    }

    /// The first one to three bytes of a sync word, so that a chunk after it
    /// is a few bytes late.
    pub(super) fn begun_sync(&mut self) {
        let count = 1 + self.rng.below(3);
        let sync = self.order().sync();
        self.out.raw(&sync[..count]);
    }

    /// A chunk whose first bytes were lost.
    pub(super) fn beheaded(&mut self) {
        let start = self.out.len();
        let kind = self.rng.pick(&Kind::ALL);
        self.good(kind);
        let chunk = self.out.bytes()[start..].to_vec();
        let lost = 1 + self.rng.below(chunk.len() - 1);
        self.out.cut(start).raw(&chunk[lost..]);
    }

    /// Something that costs the reader its step; a chunk after it is found.
    pub(super) fn gap(&mut self) {
        match self.rng.below(5) {
            0 => self.noise(),
            1 => self.bad_header(),
            2 => self.begun_sync(),
            3 => self.beheaded(),
            _ => {
                // A sync word that takes the next chunk's type for its size.
                let sync = self.order().sync();
                self.out.raw(&sync);
            }
        }
    }

    /// A chunk that stops before its end.
    pub(super) fn cut_chunk(&mut self) {
        let start = self.out.len();
        let kind = self.rng.pick(&Kind::ALL);
        self.good(kind);
        let len = self.out.len() - start;
        let kept = 1 + self.rng.below(len - 1);
        self.out.cut(start + kept);
    }
}
