//! The sample recordings.

use crate::compose::Composer;
use crate::kind::Kind;
use crate::order::Order;

const MEGAHERTZ: i64 = 1_000_000_000_000;
const KILOHERTZ: i64 = 1_000_000_000;
const SECOND: i64 = 1_000_000_000;

/// A time in nanoseconds that looks like one from a recorder.
const NOON: i64 = 1_700_000_000 * SECOND;

/// Each recording with its file name.
pub fn all() -> Vec<(&'static str, Vec<u8>)> {
    vec![
        ("whole.pxgf", whole()),
        ("dropped-link.pxgf", dropped_link()),
        ("group.pxgf", group()),
        ("gains.pxgf", gains()),
        ("little.pxgf", little()),
        ("damaged.pxgf", damaged()),
        ("notes.pxgf", notes()),
        ("lost-step.pxgf", lost_step()),
        ("still-running.pxgf", still_running()),
    ]
}

/// A stream of so many bytes, at least 64: a data chunk that ends with them,
/// but for one to three bytes that make no whole pair.
pub fn sized(bytes: usize) -> Vec<u8> {
    let mut stream = Composer::new(Order::Big);
    stream.int(Kind::Siqp, 1).long(Kind::Sr, 48 * KILOHERTZ);
    // The chunk has a header and a time, and then pairs of four bytes.
    let pairs = (bytes - stream.len() - 20) / 4;
    let numbers: Vec<i16> = (0..2 * pairs).map(|k| k as i16).collect();
    stream.shorts(Kind::Ssnc, NOON, &numbers);
    let left = bytes - stream.len();
    stream.raw(&[0; 3][..left]);
    stream.into_bytes()
}

/// A file with a header and three blocks, the third after a gap in time.
fn whole() -> Vec<u8> {
    let mut file = Composer::new(Order::Big);
    file.int(Kind::Sofh, Kind::Ssnc.code() as i32)
        .text("Survey 12, hill site – noon run")
        .empty(Kind::Eofh)
        .int(Kind::Siqp, 1)
        .long(Kind::Sr, 48 * KILOHERTZ)
        .long(Kind::Bw, 40 * KILOHERTZ)
        .long(Kind::Cf, 145 * MEGAHERTZ)
        .level(Kind::Dbfs, -12.5)
        .level(Kind::Dbtg, 30.0)
        .shorts(Kind::Ssnc, NOON, &[100, -100, 200, -200, 300, -300])
        .shorts(Kind::Ssnc, NOON + 62_500, &[400, -400, i16::MAX, i16::MIN])
        .empty(Kind::Iqdc)
        .shorts(Kind::Ssnc, NOON + SECOND, &[1, -1, 0, 2]);
    file.into_bytes()
}

/// A link that drops and comes back inside a chunk, tuned elsewhere. Until
/// the new frequency arrives, no data chunk may show the old one.
fn dropped_link() -> Vec<u8> {
    let mut lost = Composer::new(Order::Big);
    lost.shorts(Kind::Ssnc, NOON + SECOND, &[7, 7, 7, 7, 7, 7, 7, 7]);
    // The header and half of the time never arrived.
    let arrived = &lost.bytes()[16..];

    let mut stream = Composer::new(Order::Big);
    stream
        .long(Kind::Cf, 98_500_000 * 1_000_000)
        .int(Kind::Siqp, 1)
        .long(Kind::Sr, 256 * KILOHERTZ)
        .shorts(Kind::Ssnc, NOON, &[1000, 2000, 3000, 4000])
        .raw(arrived)
        .int(Kind::Siqp, 1)
        .long(Kind::Sr, 256 * KILOHERTZ)
        .shorts(Kind::Ssnc, NOON + 2 * SECOND, &[-5, 6, -7, 8])
        .long(Kind::Cf, 121_500_000 * 1_000_000)
        .shorts(Kind::Ssnc, NOON + 3 * SECOND, &[9, -10, 11, -12]);
    stream.into_bytes()
}

/// Four channels, interleaved and then in runs, and a chunk with a pair too
/// few for its layout.
fn group() -> Vec<u8> {
    let bits: Vec<u32> = (1..=8i16)
        .flat_map(|k| [f32::from(k), -f32::from(k) / 2.0])
        .map(f32::to_bits)
        .collect();
    let shorts: Vec<i16> = (1..=8).flat_map(|k| [10 * k, -k]).collect();

    let mut stream = Composer::new(Order::Big);
    stream
        .group_packing(1, 4, &[0, 1, 2, 3])
        .group_frequencies(&[
            100 * MEGAHERTZ,
            101 * MEGAHERTZ,
            102 * MEGAHERTZ,
            103 * MEGAHERTZ,
        ])
        .group_gains(&[0.0, -0.5, 0.25, 1.0])
        .long(Kind::Sr, 1_250 * KILOHERTZ)
        .long(Kind::Gcbw, 1_000 * KILOHERTZ)
        .level(Kind::Dbtg, 24.0)
        .level(Kind::Ffs, 32768.0)
        .shorts(Kind::Gsnc, NOON, &shorts)
        .patterns(Kind::Gfnc, NOON + 1_600, &bits)
        .group_packing(0, 1, &[2, 0, 6, 4])
        .shorts(Kind::Gsnc, NOON + 3_200, &shorts)
        .shorts(Kind::Gsnc, NOON + 4_800, &shorts[..14]);
    stream.into_bytes()
}

/// A total gain and the gains of three channels, of which one or both change
/// before each group chunk: the total gain by itself, both so large that a sum
/// is past all floats, the total gain malformed, and gains for two channels.
fn gains() -> Vec<u8> {
    let numbers = [1, -1, 2, -2, 3, -3];
    let mut stream = Composer::new(Order::Big);
    stream
        .group_packing(1, 3, &[0, 1, 2])
        .long(Kind::Sr, 1_250 * KILOHERTZ)
        .group_frequencies(&[100 * MEGAHERTZ, 101 * MEGAHERTZ, 102 * MEGAHERTZ])
        .group_gains(&[0.5, -0.0, -20.0])
        .level(Kind::Dbtg, 20.0)
        .shorts(Kind::Gsnc, NOON, &numbers)
        .level(Kind::Dbtg, -0.0)
        .shorts(Kind::Gsnc, NOON + 800, &numbers)
        .level(Kind::Dbtg, f32::MAX)
        .group_gains(&[f32::MAX, f32::MIN, 0.5])
        .shorts(Kind::Gsnc, NOON + 1_600, &numbers)
        .level(Kind::Dbtg, f32::INFINITY)
        .shorts(Kind::Gsnc, NOON + 2_400, &numbers)
        .level(Kind::Dbtg, 20.0)
        .group_gains(&[0.25, -1.5])
        .shorts(Kind::Gsnc, NOON + 3_200, &numbers)
        .int(Kind::Siqp, 1)
        .shorts(Kind::Ssnc, NOON + 4_000, &[4, -4]);
    stream.into_bytes()
}

/// Float samples in the little order, with a NaN that keeps its bits.
fn little() -> Vec<u8> {
    let mut stream = Composer::new(Order::Little);
    stream
        .int(Kind::Siqp, 0)
        .long(Kind::Sr, 8 * KILOHERTZ)
        .level(Kind::Ffs, 1.0)
        .bandwidth_offset(3 * KILOHERTZ, -KILOHERTZ)
        .patterns(
            Kind::Sfnc,
            NOON,
            &[
                0.5f32.to_bits(),
                (-0.25f32).to_bits(),
                0x7FC0_1234,
                (-0.0f32).to_bits(),
            ],
        )
        .patterns(
            Kind::Sfnr,
            NOON + SECOND,
            &[0x3F80_0000, 0xFFA0_0001, 0x0000_0001],
        );
    stream.into_bytes()
}

/// A little of everything that can go wrong.
fn damaged() -> Vec<u8> {
    let mut stream = Composer::new(Order::Big);
    stream
        .raw(&[0x00, 0x17, 0xA1, 0xB2, 0x3C])
        .int(Kind::Siqp, 2)
        .chunk(Kind::Text, &[0, 0, 0, 2, b'O', b'K', 0, 1])
        .chunk_of(0x4E4F_5445, &[1, 2, 3, 4])
        .header(Kind::Cf.code(), 6)
        .shorts(Kind::Ssnc, NOON, &[1, 2])
        .long(Kind::Cf, 88 * MEGAHERTZ);
    let cut = stream.len() - 5;
    stream.cut(cut);
    stream.into_bytes()
}

/// A file that is all header: texts with characters of every sort, and one
/// without any.
fn notes() -> Vec<u8> {
    let mut file = Composer::new(Order::Big);
    file.int(Kind::Sofh, -2)
        .text("Zürich, 12 µW\tnorth \\ south\r\n\u{85}\u{7F}\0 東")
        .text("")
        .empty(Kind::Eofh);
    file.into_bytes()
}

/// A recording taken up in the middle of a chunk, in which the step is then
/// lost three times: the first byte of a chunk is missing, a size is past the
/// limit, and a size is not in whole words.
fn lost_step() -> Vec<u8> {
    let mut stream = Composer::new(Order::Big);
    stream
        .raw(&[0x00, 0x00, 0xFF, 0x38])
        .int(Kind::Siqp, 1)
        .long(Kind::Sr, 48 * KILOHERTZ)
        .shorts(Kind::Ssnc, NOON, &[100, -100]);
    // All of the chunk but its first byte arrived.
    let mut short = Composer::new(Order::Big);
    short.int(Kind::Siqp, 1);
    stream
        .raw(&short.bytes()[1..])
        .long(Kind::Sr, 48 * KILOHERTZ)
        .header(Kind::Ssnc.code(), 69_636)
        .int(Kind::Siqp, 1)
        .header(Kind::Cf.code(), 10)
        .shorts(Kind::Ssnc, NOON + SECOND, &[200, -200]);
    stream.into_bytes()
}

/// A recording that goes on while it is read: a link that dropped inside a
/// chunk and came back, and a last sync word of which only three bytes are
/// written yet. In parts of 64 bytes, the skipped bytes come in two pieces, and
/// the third part ends inside a sync word.
fn still_running() -> Vec<u8> {
    let numbers = |from: i16| -> Vec<i16> { (from..from + 9).flat_map(|k| [k, -k]).collect() };
    let mut lost = Composer::new(Order::Big);
    lost.shorts(Kind::Ssnc, NOON + SECOND, &numbers(10));
    // The header and two bytes of the time never arrived.
    let arrived = &lost.bytes()[14..];

    let mut stream = Composer::new(Order::Big);
    stream
        .int(Kind::Siqp, 1)
        .long(Kind::Sr, 48 * KILOHERTZ)
        .long(Kind::Cf, 145 * MEGAHERTZ)
        .shorts(Kind::Ssnc, NOON, &numbers(1))
        .raw(arrived)
        .int(Kind::Siqp, 1)
        .long(Kind::Sr, 48 * KILOHERTZ)
        .shorts(Kind::Ssnc, NOON + 2 * SECOND, &numbers(20))
        .raw(&Order::Big.sync()[..3]);
    stream.into_bytes()
}
