//! The streams and bodies that are worked on. They depend on nothing but the code here.

use second::compose::{text_body, Composer};
use second::rng::Rng;
use second::{Kind, Order};

pub const MIB: usize = 1 << 20;

/// Bytes of samples in a large data chunk: whole pairs of either width for each of four channels.
pub const SAMPLES: usize = 69_600;

/// The channels of a group.
pub const CHANNELS: usize = 4;

/// All values that data can need, so that any data chunk after them is ready.
pub fn metas(order: Order, iq: bool, increment: i32, offsets: &[i32]) -> Composer {
    let mut stream = Composer::new(order);
    stream
        .int(Kind::Siqp, iq.into())
        .long(Kind::Sr, 20_000_000_000_000)
        .level(Kind::Ffs, 1.0)
        .group_packing(iq.into(), increment, offsets);
    stream
}

/// Small chunks of every kind that sets a value, over and over.
pub fn small(order: Order, bytes: usize) -> Vec<u8> {
    let mut stream = Composer::new(order);
    let mut k = 0;
    while stream.len() < bytes {
        k += 1;
        stream
            .int(Kind::Siqp, 1)
            .long(Kind::Sr, 1_000_000 + k)
            .long(Kind::Bw, k)
            .bandwidth_offset(k, -k)
            .long(Kind::Gcbw, k)
            .long(Kind::Cf, 100_000_000_000 + k)
            .level(Kind::Dbfs, -10.5)
            .level(Kind::Dbtg, 3.25)
            .level(Kind::Ffs, 1.0)
            .group_packing(1, 1, &[0, 4, 8, 12])
            .group_frequencies(&[k, 2 * k, 3 * k, 4 * k])
            .group_gains(&[0.0, 1.0, 2.0, 3.0])
            .int(Kind::Sofh, 7)
            .empty(Kind::Iqdc);
    }
    stream.into_bytes()
}

/// Small data chunks of the six kinds in turn, over and over: four pairs, or eight real numbers, in each, and each ready.
pub fn small_data(order: Order, bytes: usize) -> Vec<u8> {
    let offsets: Vec<i32> = (0..CHANNELS as i32).collect();
    let mut stream = metas(order, true, CHANNELS as i32, &offsets);
    let (shorts, patterns) = ([-2; 2 * CHANNELS], [0x3F80_0000; 2 * CHANNELS]);
    while stream.len() < bytes {
        stream
            .shorts(Kind::Ssnc, 5, &shorts)
            .shorts(Kind::Ssnr, 5, &shorts)
            .patterns(Kind::Sfnc, 5, &patterns)
            .patterns(Kind::Sfnr, 5, &patterns)
            .shorts(Kind::Gsnc, 5, &shorts)
            .patterns(Kind::Gfnc, 5, &patterns);
    }
    stream.into_bytes()
}

/// Large data chunks, each ready.
pub fn large(order: Order, bytes: usize) -> Vec<u8> {
    let mut stream = metas(order, true, 1, &[0]);
    let numbers = vec![-2; (69_632 - 8) / 2];
    while stream.len() < bytes {
        stream.shorts(Kind::Ssnc, 5, &numbers);
    }
    stream.into_bytes()
}

/// Small and middle-sized chunks with noise between some of them, which is repeated from a MiB on.
pub fn mixed(order: Order, bytes: usize) -> Vec<u8> {
    let mut rng = Rng::new(8);
    let mut stream = Composer::new(order);
    let (metas, numbers) = (small(order, 1), vec![3; 2_000]);
    while stream.len() < bytes.min(MIB) {
        let noise = 1 + rng.below(4_000);
        let numbers = &numbers[..2 * rng.below(1_000)];
        stream.raw(&metas).shorts(Kind::Ssnc, 5, numbers);
        stream.raw(&metas).raw(&rng.bytes(noise));
    }
    stream.cut(MIB);
    stream.bytes().repeat(bytes / MIB)
}

/// Bytes with no chunk in them.
pub fn noise(bytes: usize) -> [(&'static str, Vec<u8>); 4] {
    let mut rng = Rng::new(1);
    let mut bad = Composer::new(Order::Big);
    while bad.len() < bytes {
        bad.header(Kind::Ssnc.code(), u32::MAX);
    }
    [
        ("random bytes", rng.bytes(bytes)),
        ("zeros", vec![0; bytes]),
        ("A1 bytes", vec![0xA1; bytes]),
        ("sync words with bad headers", bad.into_bytes()),
    ]
}

/// Bodies of TEXT chunks of the largest size.
pub fn texts(order: Order) -> [(&'static str, Vec<u8>); 2] {
    let of = |words: &str| text_body(order, &words.as_bytes()[..69_628]);
    let mut mixed = String::new();
    while mixed.len() < 69_628 {
        mixed.push_str("Grüße from station 7, 東京タワー: CF 100.5 MHz, naïve 😀 ok. ");
    }
    while !mixed.is_char_boundary(69_628) {
        mixed.insert(0, ' ');
    }
    [
        (
            "ASCII",
            of(&"Recorded at 100.5 MHz, antenna 2. ".repeat(2_100)),
        ),
        ("mixed", of(&mixed)),
    ]
}
