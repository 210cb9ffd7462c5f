//! Whole files, good ones and ones that the file check refuses.

use super::Maker;
use crate::body::Fault;
use crate::kind::Kind;

/// What is wrong with a file.
#[derive(Clone, Copy, Debug, PartialEq, Eq)]
enum Flaw {
    None,
    Start,
    EarlyData,
    NoHeaderEnd,
    SecondStart,
    Gap,
    Cut,
}

const FLAWS: [Flaw; 8] = [
    Flaw::None,
    Flaw::Start,
    Flaw::EarlyData,
    Flaw::NoHeaderEnd,
    Flaw::SecondStart,
    Flaw::Gap,
    Flaw::Cut,
    Flaw::None,
];

impl Maker {
    pub(super) fn file(&mut self, turn: usize) {
        let flaw = FLAWS[turn % FLAWS.len()];
        if flaw == Flaw::Start {
            self.wrong_start();
        } else {
            self.good(Kind::Sofh);
        }
        let early = self.rng.chance(2);
        self.good(Kind::Text);
        if self.rng.chance(2) {
            self.good(Kind::Cf);
            self.unknown();
        }
        if early {
            self.flaw(flaw);
        }
        if flaw == Flaw::EarlyData {
            self.data_of_any_sort();
        }
        if flaw != Flaw::NoHeaderEnd {
            self.good(Kind::Eofh);
        } else if self.rng.chance(2) {
            self.bad(Kind::Eofh, Fault::Size);
        } else {
            // The header never ends, and no data comes either.
            return;
        }
        self.good(Kind::Siqp);
        self.good(Kind::Sr);
        if !early {
            self.flaw(flaw);
        }
        if flaw == Flaw::NoHeaderEnd && self.rng.chance(2) {
            return;
        }
        for _ in 0..self.rng.below(4) {
            self.data_of_any_sort();
        }
        if self.rng.chance(4) {
            self.good(Kind::Eofh);
        }
        if flaw == Flaw::Cut {
            self.cut_chunk();
        }
    }

    fn wrong_start(&mut self) {
        match self.rng.below(4) {
            0 => self.bad(Kind::Sofh, Fault::Size),
            1 => self.good(Kind::Text),
            2 => {
                self.noise();
                self.good(Kind::Sofh);
            }
            _ => {
                self.gap();
                self.good(Kind::Sofh);
            }
        }
    }

    /// The flaws that can stand before or after the header's end.
    fn flaw(&mut self, flaw: Flaw) {
        match flaw {
            Flaw::SecondStart if self.rng.chance(2) => self.good(Kind::Sofh),
            Flaw::SecondStart => self.bad(Kind::Sofh, Fault::Size),
            Flaw::Gap => self.gap(),
            _ => {}
        }
    }

    fn data_of_any_sort(&mut self) {
        let kind = self.rng.pick(&Kind::DATA);
        if self.rng.chance(3) {
            self.bad(kind, Fault::Size);
        } else {
            self.good(kind);
        }
    }
}
