//! A search and a test of cover that are made to be fast, for the second program's reader, whose own go place by place and pair
//! by pair.

use second::body::{GroupPacking, Packing, PerChannel};
use second::frame::{look, Look};
use second::make::make;
use second::rng::Rng;
use second::{Order, Reader, Walk};

/// How many places are compared at once before looking at any one of them.
const BLOCK: usize = 64;

pub fn reader(order: Order, stream: &[u8]) -> Reader<'_> {
    Reader::new(order, stream).by(search, covers)
}

/// The number of items of a stream.
pub fn count(order: Order, stream: &[u8]) -> usize {
    Walk::new(order, stream).by(search).count()
}

/// The lowest place, from `from` on, that shows a complete or an unfinished chunk.
pub fn search(order: Order, stream: &[u8], from: usize) -> Option<usize> {
    let mut from = from;
    while let Some(place) = find_word(stream, order.sync(), from) {
        match look(order, stream, place) {
            Look::Complete(_) | Look::Unfinished => return Some(place),
            Look::NoSync | Look::Bad(_) => from = place + 1,
        }
    }
    begun_word(order, stream, from)
}

/// The place, from `from` on, of a sync word that the end of the stream cuts off. It is one of the last three.
pub fn begun_word(order: Order, stream: &[u8], from: usize) -> Option<usize> {
    let first = from.max(stream.len().saturating_sub(3));
    (first..stream.len()).find(|place| look(order, stream, *place) == Look::Unfinished)
}

/// The lowest place, from `from` on, where the four bytes of `word` stand.
fn find_word(stream: &[u8], word: [u8; 4], from: usize) -> Option<usize> {
    let rest = stream.get(from..)?;
    let mut at = 0;
    // Every place of a block needs three bytes after it. Comparing the first two bytes of the word at all places of the block
    // is a branchless loop.
    while at + BLOCK + 3 <= rest.len() {
        let first = &rest[at..at + BLOCK];
        let second = &rest[at + 1..at + 1 + BLOCK];
        let hit = first.iter().zip(second).fold(0u8, |hit, (a, b)| {
            hit | u8::from((*a == word[0]) & (*b == word[1]))
        });
        if hit != 0 {
            let block = &rest[at..at + BLOCK + 3];
            if let Some(i) = block.windows(4).position(|w| *w == word) {
                return Some(from + at + i);
            }
        }
        at += BLOCK;
    }
    let tail = rest[at..].windows(4).position(|w| *w == word)?;
    Some(from + at + tail)
}

/// Whether a layout covers so many pairs.
///
/// With increment 1 the channels are runs of equal length, which tile the chunk only if they start at the multiples of that
/// length. With as many channels as the increment they are combs, which tile it only if they start at 0 and up, one each. A
/// chunk without pairs has no samples to place.
fn covers(layout: &GroupPacking, pairs: usize) -> bool {
    let channels = layout.channels();
    if !pairs.is_multiple_of(channels) {
        return false;
    }
    if pairs == 0 {
        return true;
    }
    let spacing = if layout.increment == 1 {
        pairs / channels
    } else {
        1
    };
    let mut taken = 0u32;
    for &offset in layout.offsets.values() {
        let offset = offset as usize;
        let slot = offset / spacing;
        if !offset.is_multiple_of(spacing) || slot >= channels {
            return false;
        }
        taken |= 1 << slot;
    }
    taken.count_ones() as usize == channels
}

/// Whether a walk by the fast search gives the items of the plain one, in both orders.
fn walks_alike(stream: &[u8]) -> bool {
    [Order::Big, Order::Little].into_iter().all(|order| {
        let walk = Walk::new(order, stream);
        walk.clone().by(search).eq(walk)
    })
}

/// Stops the program unless both give the answers of the plain ones, on many streams and layouts.
pub fn agrees() {
    for seed in 0..300 {
        assert!(walks_alike(&make(seed)), "seed {seed}");
    }
    let mut rng = Rng::new(1);
    for _ in 0..200_000 {
        let channels = 1 + rng.below(4);
        let pairs = rng.below(14);
        let increment = if rng.chance(2) { 1 } else { channels as u32 };
        let layout = GroupPacking {
            packing: Packing::Iq,
            increment,
            offsets: PerChannel::from_values((0..channels).map(|_| rng.below(9) as u32)),
        };
        let plain = second::cover::covers(&layout, pairs);
        assert_eq!(covers(&layout, pairs), plain, "{layout:?} {pairs}");
    }
}

#[cfg(test)]
mod tests {
    use super::*;

    #[test]
    fn made_streams_and_layouts() {
        agrees();
    }

    /// Every beginning of some streams, so that many end inside a sync word.
    #[test]
    fn streams_cut_anywhere() {
        for stream in (0..300).map(make).filter(|s| s.len() < 600) {
            for len in 0..stream.len() {
                let part = &stream[..len];
                assert!(walks_alike(part), "{part:02X?}");
            }
        }
    }

    /// Beginnings of both sync words at the end of stretches about one block and two.
    #[test]
    fn begun_words_about_a_block() {
        for word in [Order::Big.sync(), Order::Little.sync()] {
            for before in 0..2 * BLOCK + 5 {
                for len in 1..=4 {
                    let mut stream = vec![word[0]; before];
                    stream.extend(&word[..len]);
                    assert!(walks_alike(&stream), "{stream:02X?}");
                }
            }
        }
    }

    #[test]
    fn only_places_from_the_given_one_on() {
        let stream = [0, 0xA1, 0xB2, 0xA1];
        let found = [0, 1, 2, 3, 4, 5].map(|from| search(Order::Big, &stream, from));
        assert_eq!(found, [Some(3), Some(3), Some(3), Some(3), None, None]);
        assert_eq!(search(Order::Big, &stream[..3], 0), Some(1));
        assert_eq!(search(Order::Big, &stream[..3], 2), None);
        assert_eq!(search(Order::Little, &stream, 0), None);
    }
}
