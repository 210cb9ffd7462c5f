//! Reading a stream: items, verdicts and the state shown with data.

use crate::body::{Body, Fault, GroupPacking};
use crate::check::check;
use crate::cover::covers;
use crate::frame::Frame;
use crate::kind::{DataForm, Kind};
use crate::order::Order;
use crate::samples::Ready;
use crate::state::{Lack, State};
use crate::walk::{Cause, Search, Span, Walk};

/// Number of the refusal of a group chunk whose layout doesn't cover it.
pub const NO_COVER: u32 = 16;

/// One stretch of the stream, held in place so that reading needs no memory
/// beside the stream.
#[allow(clippy::large_enum_variant)]
#[derive(Clone, Debug, PartialEq, Eq)]
pub enum Item<'a> {
    Skipped {
        place: usize,
        len: usize,
        cause: Cause,
    },
    Unfinished {
        place: usize,
        len: usize,
    },
    Chunk {
        frame: Frame,
        kind: Option<Kind>,
        verdict: Verdict<'a>,
    },
}

/// What a reader says of an accepted chunk.
#[allow(clippy::large_enum_variant)]
#[derive(Clone, Debug, PartialEq, Eq)]
pub enum Verdict<'a> {
    /// A type with no rules of its own.
    Unknown,
    Malformed(Fault),
    /// A group chunk that its layout doesn't cover.
    NoCover,
    /// Well-formed, and not of a data kind.
    Plain(Body<'a>),
    Waits {
        lack: Lack,
        time: i64,
    },
    Ready(Ready<'a>),
}

/// Whether a layout covers so many pairs.
pub type Cover = fn(&GroupPacking, usize) -> bool;

/// Where a reader stands, and all that it knows there. A reader goes on from it
/// in the same stream or in a longer one with the same beginning; the default
/// is where every reader starts.
#[derive(Clone, Copy, Debug, Default, PartialEq, Eq)]
pub struct Bookmark {
    pub place: usize,
    pub in_step: bool,
    pub state: State,
    /// The start mark.
    pub start: bool,
}

/// Gives the items of a stream one after the other.
#[derive(Clone, Debug)]
pub struct Reader<'a> {
    walk: Walk<'a>,
    state: State,
    start: bool,
    covers: Cover,
}

impl<'a> Reader<'a> {
    pub fn new(order: Order, stream: &'a [u8]) -> Self {
        Reader::from(Walk::new(order, stream), State::default(), false)
    }

    /// From where a walk stands, with this state and start mark.
    pub fn from(walk: Walk<'a>, state: State, start: bool) -> Self {
        Reader {
            walk,
            state,
            start,
            covers,
        }
    }

    /// From a bookmark that isn't past the end.
    pub fn at(order: Order, stream: &'a [u8], bookmark: &Bookmark) -> Self {
        let walk = Walk::at(order, stream, bookmark.place, bookmark.in_step);
        Reader::from(walk, bookmark.state, bookmark.start)
    }

    pub fn bookmark(&self) -> Bookmark {
        Bookmark {
            place: self.walk.place(),
            in_step: self.walk.in_step(),
            state: self.state,
            start: self.start,
        }
    }

    /// Where the reader stands.
    pub fn walk(&self) -> &Walk<'a> {
        &self.walk
    }

    /// The same reader by another search and another test of cover, which
    /// have to give the same answers. The benchmark has fast ones.
    pub fn by(self, search: Search, covers: Cover) -> Self {
        Reader {
            walk: self.walk.by(search),
            covers,
            ..self
        }
    }

    fn judge(&mut self, frame: Frame, kind: Kind) -> Verdict<'a> {
        let body = frame.body(self.walk.stream());
        match check(self.walk.order(), kind, body) {
            Err(fault) => {
                self.state.remove(kind);
                self.start |= kind.data_form().is_some();
                Verdict::Malformed(fault)
            }
            Ok(Body::Data {
                form,
                time,
                samples,
            }) => {
                let verdict = self.judge_data(form, time, samples);
                // A ready chunk shows the mark and clears it; any other sets it.
                self.start = !matches!(verdict, Verdict::Ready(_));
                verdict
            }
            Ok(body) => {
                self.state.set(&body);
                self.start |= matches!(body, Body::Discontinuity);
                Verdict::Plain(body)
            }
        }
    }

    fn judge_data(&self, form: DataForm, time: i64, samples: &'a [u8]) -> Verdict<'a> {
        if let Some(lack) = self.state.lack(form) {
            return Verdict::Waits { lack, time };
        }
        let group = self.state.group_packing.filter(|_| form.group);
        if let Some(layout) = &group {
            if !(self.covers)(layout, samples.len() / form.sample_bytes()) {
                return Verdict::NoCover;
            }
        }
        let state = match &group {
            Some(layout) => self.state.shown_in_group(layout.channels()),
            None => self.state,
        };
        Verdict::Ready(Ready {
            order: self.walk.order(),
            form,
            time,
            start: self.start,
            state,
            samples,
        })
    }
}

impl<'a> Iterator for Reader<'a> {
    type Item = Item<'a>;

    fn next(&mut self) -> Option<Item<'a>> {
        Some(match self.walk.next()? {
            Span::Skipped { place, len, cause } => Item::Skipped { place, len, cause },
            Span::Unfinished { place, len } => Item::Unfinished { place, len },
            Span::Chunk { frame, regained } => {
                if regained {
                    // Nothing from before the gap may reach what follows it.
                    self.state = State::default();
                    self.start = true;
                }
                let kind = Kind::from_code(frame.code);
                let verdict = match kind {
                    Some(kind) => self.judge(frame, kind),
                    None => Verdict::Unknown,
                };
                Item::Chunk {
                    frame,
                    kind,
                    verdict,
                }
            }
        })
    }
}
