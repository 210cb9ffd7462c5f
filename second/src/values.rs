//! Numbers with a taste for the edges of their ranges.

use crate::rng::Rng;

pub fn short(rng: &mut Rng) -> i16 {
    const EDGES: [i16; 7] = [i16::MIN, i16::MIN + 1, -1, 0, 1, 256, i16::MAX];
    if rng.chance(3) {
        rng.pick(&EDGES)
    } else {
        rng.bits() as i16
    }
}

pub fn int(rng: &mut Rng) -> i32 {
    const EDGES: [i32; 9] = [
        i32::MIN,
        i32::MIN + 1,
        -1,
        0,
        1,
        2,
        1 << 24,
        i32::MAX - 1,
        i32::MAX,
    ];
    match rng.below(3) {
        0 => rng.pick(&EDGES),
        1 => rng.below(100) as i32,
        _ => rng.bits() as i32,
    }
}

pub fn long(rng: &mut Rng) -> i64 {
    const EDGES: [i64; 10] = [
        i64::MIN,
        i64::MIN + 1,
        -(1 << 32),
        -1,
        0,
        1,
        1 << 32,
        u32::MAX as i64,
        i64::MAX - 1,
        i64::MAX,
    ];
    match rng.below(3) {
        0 => rng.pick(&EDGES),
        1 => rng.below(1_000_000_000) as i64,
        _ => rng.bits() as i64,
    }
}

/// At least `least`, which is 0 or 1.
pub fn long_from(rng: &mut Rng, least: i64) -> i64 {
    (long(rng) & i64::MAX).max(least)
}

/// Below `least`, which is 0 or 1.
pub fn long_below(rng: &mut Rng, least: i64) -> i64 {
    (long(rng) | i64::MIN).max(rng.pick(&[i64::MIN, -1, least - 1]))
}

/// Any 32-bit float pattern.
pub fn pattern(rng: &mut Rng) -> u32 {
    match rng.below(6) {
        0 => not_finite(rng),
        1 | 2 => rng.bits() as u32,
        _ => finite(rng),
    }
}

pub fn finite(rng: &mut Rng) -> u32 {
    const EDGES: [u32; 10] = [
        0x0000_0000, // 0
        0x8000_0000, // -0
        0x0000_0001, // smallest subnormal
        0x8000_0001,
        0x007F_FFFF, // largest subnormal
        0x0080_0000, // smallest normal
        0x3F80_0000, // 1
        0xC1A0_0000, // -20
        0x7F7F_FFFF, // largest
        0xFF7F_FFFF,
    ];
    if rng.chance(2) {
        return rng.pick(&EDGES);
    }
    let pattern = rng.bits() as u32;
    if f32::from_bits(pattern).is_finite() {
        pattern
    } else {
        // Without the top bit of its exponent the pattern is a finite one.
        pattern & !0x4000_0000
    }
}

/// Finite, for dBTG and gains: often one of those whose sums overflow, cancel,
/// keep a sign of zero, are subnormal or are rounded.
pub fn gain(rng: &mut Rng) -> u32 {
    const ZEROS: [u32; 2] = [0x0000_0000, 0x8000_0000];
    const TELLING: [u32; 11] = [
        0x7F7F_FFFF, // largest
        0xFF7F_FFFF,
        0x7300_0000, // half a step from the largest to the infinite
        0x72FF_FFFF, // a little less than that
        0x0000_0001, // smallest subnormal
        0x0080_0000, // smallest normal
        0x41A0_0000, // 20
        0xC1A0_0000, // -20
        0x3FC0_0000, // 1.5
        0x3F80_0000, // 1
        0x4B80_0000, // 2^24, where floats begin to be 2 apart
    ];
    match rng.below(6) {
        0 => rng.pick(&ZEROS),
        1..=3 => rng.pick(&TELLING),
        _ => finite(rng),
    }
}

/// Finite and above 0.
pub fn above_zero(rng: &mut Rng) -> u32 {
    (finite(rng) & 0x7FFF_FFFF).max(1)
}

/// Infinite or not a number.
pub fn not_finite(rng: &mut Rng) -> u32 {
    const EDGES: [u32; 7] = [
        0x7F80_0000,
        0xFF80_0000,
        0x7F80_0001,
        0x7FC0_0000,
        0xFFC0_0000,
        0x7FFF_FFFF,
        0xFFFF_FFFF,
    ];
    if rng.chance(2) {
        rng.pick(&EDGES)
    } else {
        rng.bits() as u32 | 0x7F80_0000
    }
}

/// Finite but not above 0, or not finite.
pub fn not_above_zero(rng: &mut Rng) -> u32 {
    match rng.below(4) {
        0 => 0,
        1 => 0x8000_0000,
        2 => finite(rng) | 0x8000_0000,
        _ => not_finite(rng),
    }
}

/// A number of channels, often at the limits.
pub fn channels(rng: &mut Rng) -> usize {
    match rng.below(6) {
        0 => 1,
        1 => 16,
        _ => 1 + rng.below(16),
    }
}

/// A count that no group can have.
pub fn not_channels(rng: &mut Rng) -> i32 {
    rng.pick(&[0, 17, 18, 32, -1, -2, -16, i32::MIN, i32::MAX, 1 << 24])
}
