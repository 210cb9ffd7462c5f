//! Checking that a stream is a whole file.

use crate::check::check;
use crate::frame::Frame;
use crate::kind::Kind;
use crate::order::Order;
use crate::walk::{Span, Walk};

/// Why a file is refused, with the place it is refused for.
#[derive(Clone, Copy, Debug, PartialEq, Eq)]
pub enum FileRefusal {
    /// No well-formed SOFH at byte 0.
    Start,
    /// Samples come, or the file stops, while its header is still open.
    Header(usize),
    SecondStart(usize),
    /// Bytes that belong to no complete chunk.
    Loose(usize),
}

impl FileRefusal {
    pub const fn number(self) -> u32 {
        match self {
            FileRefusal::Start => 41,
            FileRefusal::Header(_) => 42,
            FileRefusal::SecondStart(_) => 43,
            FileRefusal::Loose(_) => 44,
        }
    }

    pub const fn place(self) -> usize {
        match self {
            FileRefusal::Start => 0,
            FileRefusal::Header(place)
            | FileRefusal::SecondStart(place)
            | FileRefusal::Loose(place) => place,
        }
    }
}

/// The number of items of a good file.
pub fn check_file(order: Order, file: &[u8]) -> Result<usize, FileRefusal> {
    let well_formed = |frame: &Frame, kind: Kind| {
        frame.code == kind.code() && check(order, kind, frame.body(file)).is_ok()
    };
    let mut walk = Walk::new(order, file);
    match walk.next() {
        Some(Span::Chunk { frame, .. }) if well_formed(&frame, Kind::Sofh) => {}
        _ => return Err(FileRefusal::Start),
    }
    let mut items = 1;
    let mut header_ended = false;
    for span in walk {
        items += 1;
        let frame = match span {
            Span::Chunk { frame, .. } => frame,
            Span::Skipped { place, .. } | Span::Unfinished { place, .. } => {
                return Err(FileRefusal::Loose(place))
            }
        };
        match Kind::from_code(frame.code) {
            Some(Kind::Sofh) => return Err(FileRefusal::SecondStart(frame.place)),
            Some(Kind::Eofh) => header_ended |= well_formed(&frame, Kind::Eofh),
            Some(kind) if kind.data_form().is_some() && !header_ended => {
                return Err(FileRefusal::Header(frame.place))
            }
            _ => {}
        }
    }
    if header_ended {
        Ok(items)
    } else {
        Err(FileRefusal::Header(file.len()))
    }
}
