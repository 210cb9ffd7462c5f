//! Cutting a stream into items by its frames alone.
//!
//! Where items begin and end doesn't depend on what bodies hold, so this
//! layer knows nothing of kinds or state.

use crate::frame::{look, Frame, Look, SizeFault};
use crate::order::Order;
use crate::search::search;

/// Why bytes were passed over.
#[derive(Clone, Copy, Debug, PartialEq, Eq)]
pub enum Cause {
    /// The reader was searching when it came to them.
    WasSearching,
    /// It was in step, and found no sync word.
    SyncMissing,
    /// It was in step, and found a header that asks for too much.
    SizePastLimit,
    /// It was in step, and found a header that asks for part of a word.
    SizePartWord,
}

impl Cause {
    pub const ALL: [Cause; 4] = [
        Cause::WasSearching,
        Cause::SyncMissing,
        Cause::SizePastLimit,
        Cause::SizePartWord,
    ];

    pub fn word(self) -> &'static str {
        match self {
            Cause::WasSearching => "searching",
            Cause::SyncMissing => "sync",
            Cause::SizePastLimit => "large",
            Cause::SizePartWord => "uneven",
        }
    }
}

#[derive(Clone, Copy, Debug, PartialEq, Eq)]
pub enum Span {
    Skipped {
        place: usize,
        len: usize,
        cause: Cause,
    },
    Unfinished {
        place: usize,
        len: usize,
    },
    /// `regained` says that the reader was searching when it accepted this.
    Chunk {
        frame: Frame,
        regained: bool,
    },
}

/// The place of the next complete or unfinished chunk, from a place on.
pub type Search = fn(Order, &[u8], usize) -> Option<usize>;

/// Steps through a stream; starts searching.
#[derive(Clone, Debug)]
pub struct Walk<'a> {
    order: Order,
    stream: &'a [u8],
    place: usize,
    in_step: bool,
    search: Search,
}

impl<'a> Walk<'a> {
    pub fn new(order: Order, stream: &'a [u8]) -> Self {
        Walk::at(order, stream, 0, false)
    }

    /// From a place that isn't past the end, in step or searching.
    pub fn at(order: Order, stream: &'a [u8], place: usize, in_step: bool) -> Self {
        Walk {
            order,
            stream,
            place,
            in_step,
            search,
        }
    }

    /// The same walk by another search, which has to find the same places.
    /// The benchmark has one that is made to be fast.
    pub fn by(self, search: Search) -> Self {
        Walk { search, ..self }
    }

    pub fn order(&self) -> Order {
        self.order
    }

    pub fn stream(&self) -> &'a [u8] {
        self.stream
    }

    pub fn place(&self) -> usize {
        self.place
    }

    pub fn in_step(&self) -> bool {
        self.in_step
    }

    /// Passes over what stands here, which lost the step if there was one.
    fn skip(&mut self, lost_by: Cause) -> Span {
        let place = self.place;
        let cause = match self.in_step {
            true => lost_by,
            false => Cause::WasSearching,
        };
        self.in_step = false;
        let next = (self.search)(self.order, self.stream, place + 1);
        self.place = next.unwrap_or(self.stream.len());
        let len = self.place - place;
        Span::Skipped { place, len, cause }
    }
}

impl Iterator for Walk<'_> {
    type Item = Span;

    #[inline]
    fn next(&mut self) -> Option<Span> {
        let place = self.place;
        let end = self.stream.len();
        if place == end {
            return None;
        }
        Some(match look(self.order, self.stream, place) {
            Look::Complete(frame) => {
                let regained = !self.in_step;
                self.in_step = true;
                self.place = frame.end();
                Span::Chunk { frame, regained }
            }
            Look::Unfinished => {
                self.place = end;
                let len = end - place;
                Span::Unfinished { place, len }
            }
            Look::NoSync => self.skip(Cause::SyncMissing),
            Look::Bad(SizeFault::PastLimit) => self.skip(Cause::SizePastLimit),
            Look::Bad(SizeFault::PartWord) => self.skip(Cause::SizePartWord),
        })
    }
}
