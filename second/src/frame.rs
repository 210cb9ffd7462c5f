//! What a stream shows at one place.

use crate::order::Order;

/// Sync, type and size.
pub const HEADER: usize = 12;

/// The largest body a chunk may have.
pub const LARGEST_BODY: u32 = 69_632;

/// Place, type and body size of a chunk.
#[derive(Clone, Copy, Debug, PartialEq, Eq)]
pub struct Frame {
    pub place: usize,
    pub code: u32,
    pub size: usize,
}

impl Frame {
    /// The first place after the chunk.
    pub fn end(&self) -> usize {
        self.place + HEADER + self.size
    }

    pub fn body<'a>(&self, stream: &'a [u8]) -> &'a [u8] {
        &stream[self.place + HEADER..self.end()]
    }
}

/// What keeps a size from being good.
#[derive(Clone, Copy, Debug, PartialEq, Eq)]
pub enum SizeFault {
    /// Past the limit, in whole words or not.
    PastLimit,
    /// Within the limit, but not in whole words.
    PartWord,
}

#[derive(Clone, Copy, Debug, PartialEq, Eq)]
pub enum Look {
    NoSync,
    /// Sync and a whole header whose size is not good.
    Bad(SizeFault),
    /// Sync, but the header or the body runs past the end; or the sync word
    /// itself does, its first bytes being all that is left.
    Unfinished,
    Complete(Frame),
}

/// A good size, read as unsigned, is within the limit and whole words.
pub fn size_is_good(size: u32) -> bool {
    size <= LARGEST_BODY && size.is_multiple_of(4)
}

/// What the last bytes of a stream show, fewer than a sync word has: if they are
/// its first ones, a chunk may begin there.
fn look_at_last(order: Order, rest: &[u8]) -> Look {
    match !rest.is_empty() && order.sync().starts_with(rest) {
        true => Look::Unfinished,
        false => Look::NoSync,
    }
}

#[inline]
pub fn look(order: Order, stream: &[u8], place: usize) -> Look {
    let rest = stream.get(place..).unwrap_or_default();
    let Some((word, _)) = rest.split_first_chunk::<4>() else {
        return look_at_last(order, rest);
    };
    if *word != order.sync() {
        return Look::NoSync;
    }
    let Some((header, after)) = rest.split_first_chunk::<HEADER>() else {
        return Look::Unfinished;
    };
    let [_, _, _, _, t0, t1, t2, t3, s0, s1, s2, s3] = *header;
    let size = order.u32([s0, s1, s2, s3]);
    if !size_is_good(size) {
        return Look::Bad(match size > LARGEST_BODY {
            true => SizeFault::PastLimit,
            false => SizeFault::PartWord,
        });
    }
    let size = size as usize;
    if after.len() < size {
        return Look::Unfinished;
    }
    Look::Complete(Frame {
        place,
        code: order.u32([t0, t1, t2, t3]),
        size,
    })
}
