//! Damage to a finished stream, and streams that never were one.

use crate::order::Order;
use crate::rng::Rng;

/// Harms a stream in one to three places.
pub fn harm(rng: &mut Rng, bytes: &mut Vec<u8>) {
    for _ in 0..1 + rng.below(3) {
        if bytes.len() < 8 {
            return;
        }
        let place = rng.below(bytes.len());
        let count = 1 + rng.below(20.min(bytes.len() - place));
        match rng.below(6) {
            0 => bytes[place] ^= 1 << rng.below(8),
            1 => bytes[place] = rng.byte(),
            2 => {
                bytes.drain(place..place + count);
            }
            3 => {
                let extra = rng.bytes(count);
                bytes.splice(place..place, extra);
            }
            4 => {
                let again = bytes[place..place + count].to_vec();
                bytes.splice(place..place, again);
            }
            // The end is lost, but never more than half of the stream.
            _ => bytes.truncate(place.max(bytes.len() / 2)),
        }
    }
}

/// Bytes with no sync word of either order, though parts of them stand there.
pub fn without_sync(rng: &mut Rng) -> Vec<u8> {
    let mut bytes = Vec::new();
    for _ in 0..rng.below(40) {
        let sync = rng.pick(&[Order::Big, Order::Little]).sync();
        bytes.extend(&sync[..rng.below(4)]);
        bytes.push(rng.byte() & 0x7F);
    }
    bytes
}
