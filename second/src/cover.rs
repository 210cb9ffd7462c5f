//! Whether a group's layout uses every pair of a chunk exactly once.

use crate::body::GroupPacking;

/// True if the channels have equally many samples, all of them lie in the
/// chunk, and each of its pairs is that of exactly one.
pub fn covers(layout: &GroupPacking, pairs: usize) -> bool {
    let channels = layout.channels();
    if !pairs.is_multiple_of(channels) {
        return false;
    }
    let mut uses = vec![0; pairs];
    for offset in layout.offsets.values() {
        for j in 0..pairs / channels {
            let pair = *offset as usize + j * layout.increment as usize;
            match uses.get_mut(pair) {
                Some(count) => *count += 1,
                None => return false,
            }
        }
    }
    uses.iter().all(|count| *count == 1)
}

#[cfg(test)]
mod tests {
    use super::*;
    use crate::body::{Packing, PerChannel};

    fn layout(increment: u32, offsets: &[u32]) -> GroupPacking {
        GroupPacking {
            packing: Packing::Iq,
            increment,
            offsets: PerChannel::from_values(offsets.iter().copied()),
        }
    }

    #[test]
    fn two_channels_of_two() {
        assert!(covers(&layout(1, &[0, 2]), 4));
        assert!(!covers(&layout(1, &[0, 1]), 4));
        assert!(covers(&layout(2, &[1, 0]), 4));
        assert!(!covers(&layout(2, &[0, 2]), 4));
    }

    #[test]
    fn channels_of_unequal_length() {
        assert!(!covers(&layout(1, &[0, 2]), 3));
        assert!(!covers(&layout(2, &[0, 1]), 5));
    }

    #[test]
    fn largest_offset() {
        assert!(!covers(&layout(1, &[0, i32::MAX as u32]), 4));
        // No samples, so none of them lies outside.
        assert!(covers(&layout(1, &[7, i32::MAX as u32]), 0));
    }

    #[test]
    fn largest_chunk() {
        let sixteen: Vec<u32> = (0..16).collect();
        let pairs = (69_632 - 8) / 4;
        assert!(!covers(&layout(16, &sixteen), pairs));
        assert!(covers(&layout(16, &sixteen), pairs - pairs % 16));
    }
}
