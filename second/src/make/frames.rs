//! Scenes about frames: sync words, headers, ends, and the other order.

use super::Maker;
use crate::compose::Composer;
use crate::kind::Kind;
use crate::rng::Rng;

impl Maker {
    /// False starts of every sort, with chunks between them, and an end that
    /// is whole or not.
    pub(super) fn frames(&mut self, _turn: usize) {
        let sync = self.order().sync();
        let pieces = 2 + self.rng.below(8);
        for _ in 0..pieces {
            match self.rng.below(8) {
                0 => self.begun_sync(),
                // The first byte twice: a match that starts one byte later.
                1 => {
                    self.out.raw(&sync[..1]);
                }
                2 => {
                    self.out.raw(&sync[..2]).raw(&sync[..2]);
                }
                // A sync word with its last byte wrong.
                3 => {
                    self.out.raw(&sync[..3]).raw(&[sync[3] ^ 1]);
                }
                4 => self.bad_header(),
                // A bad header with a good chunk where its size would stand.
                5 => {
                    self.out.raw(&sync).raw(&[0x49, 0x51, 0x44, 0x43]);
                }
                6 => {
                    self.out.raw(&sync);
                }
                _ => self.unknown(),
            }
            for _ in 0..self.rng.below(3) {
                let kind = self
                    .rng
                    .pick(&[Kind::Iqdc, Kind::Cf, Kind::Sr, Kind::Ssnr, Kind::Text]);
                self.good(kind);
            }
        }
        self.end();
    }

    fn end(&mut self) {
        match self.rng.below(6) {
            0 => self.cut_chunk(),
            1 => self.begun_sync(),
            // The largest size, with little or nothing after the header.
            2 => {
                self.out.header(Kind::Ssnc.code(), 69_632);
                for _ in 0..self.rng.below(3) {
                    self.good(Kind::Iqdc);
                }
            }
            3 => self.noise(),
            4 => self.bad_header(),
            _ => {}
        }
    }

    /// Both orders in one stream: the first sync word decides for all of it.
    pub(super) fn orders(&mut self, _turn: usize) {
        let mut foreign = Maker {
            rng: Rng::new(self.rng.bits()),
            out: Composer::new(self.order().other()),
        };
        foreign.ready(0);
        let foreign_stream = foreign.out.into_bytes();
        let other_sync = self.order().other().sync();
        match self.rng.below(4) {
            // The other order's word comes first, with nothing to read.
            0 => {
                self.noise();
                self.out.raw(&other_sync);
            }
            1 => self.noise(),
            2 => self.begun_sync(),
            _ => {}
        }
        self.ready(0);
        match self.rng.below(3) {
            0 => {
                self.out.raw(&other_sync);
            }
            1 => {
                self.out.raw(&foreign_stream);
            }
            // Two words that share a byte.
            _ => {
                let sync = self.order().sync();
                self.out.raw(&sync).raw(&other_sync[1..]);
            }
        }
        self.good(Kind::Iqdc);
        self.good(Kind::Cf);
        self.end();
    }

    /// A large body that holds whole chunks. With its header they are bytes
    /// like any others; without it they are found.
    pub(super) fn large(&mut self, turn: usize) {
        let mut inner = Maker {
            rng: Rng::new(self.rng.bits()),
            out: Composer::new(self.order()),
        };
        inner.regained(0);
        let mut body = inner.out.into_bytes();
        let fill = self.rng.below(9_000);
        body.extend(self.rng.bytes(fill));
        body.truncate(body.len() / 4 * 4);
        self.good(Kind::Sr);
        if turn.is_multiple_of(2) {
            self.out.chunk_of(0x4249_4721, &body);
        } else {
            self.out.raw(&body);
        }
        self.good(Kind::Ssnr);
        self.good(Kind::Siqp);
        self.good(Kind::Sr);
        self.data(Kind::Ssnc, 300);
    }
}
