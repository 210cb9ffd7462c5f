//! Checking a chunk's body against its kind.

use crate::body::{Body, Fault, GroupPacking, Level, Packing, PerChannel, MOST_CHANNELS};
use crate::kind::{DataForm, Kind};
use crate::order::Order;

/// Checks the body of a chunk of this kind.
pub fn check(order: Order, kind: Kind, body: &[u8]) -> Result<Body<'_>, Fault> {
    if let Some(form) = kind.data_form() {
        return check_data(order, form, body);
    }
    Ok(match kind {
        Kind::Siqp => Body::SinglePacking(packing_of(order.i32(whole(body)?))?),
        Kind::Sr => Body::SampleRate(at_least(1, order.i64(whole(body)?))?),
        Kind::Bw => Body::Bandwidth {
            bandwidth: at_least(0, order.i64(whole(body)?))?,
            offset: 0,
        },
        Kind::Bwof => {
            let [bandwidth, offset] = halves(whole(body)?);
            Body::Bandwidth {
                bandwidth: at_least(0, order.i64(bandwidth))?,
                offset: order.i64(offset),
            }
        }
        Kind::Gcbw => Body::GroupBandwidth(at_least(0, order.i64(whole(body)?))?),
        Kind::Cf => Body::CentreFrequency(order.i64(whole(body)?)),
        Kind::Dbfs => Body::Level(Level::FullScale(finite(order.u32(whole(body)?))?)),
        Kind::Dbtg => Body::Level(Level::TotalGain(finite(order.u32(whole(body)?))?)),
        Kind::Ffs => Body::Level(Level::FloatFullScale(above_zero(order.u32(whole(body)?))?)),
        Kind::Giqp => Body::GroupPacking(check_group_packing(order, body)?),
        Kind::Gcf => Body::GroupFrequencies(check_frequencies(order, body)?),
        Kind::Grg => Body::GroupGains(check_gains(order, body)?),
        Kind::Sofh => Body::FileStart(order.i32(whole(body)?)),
        Kind::Eofh => whole::<0>(body).map(|_| Body::HeaderEnd)?,
        Kind::Iqdc => whole::<0>(body).map(|_| Body::Discontinuity)?,
        Kind::Text => Body::Text(check_text(order, body)?),
        Kind::Ssnc | Kind::Ssnr | Kind::Sfnc | Kind::Sfnr | Kind::Gsnc | Kind::Gfnc => {
            unreachable!("data kinds have a form")
        }
    })
}

/// Data bodies hold a time and then whole samples, or none.
fn check_data(order: Order, form: DataForm, body: &[u8]) -> Result<Body<'_>, Fault> {
    let (time, samples) = body.split_first_chunk::<8>().ok_or(Fault::Size)?;
    if !samples.len().is_multiple_of(form.sample_bytes()) {
        return Err(Fault::Size);
    }
    Ok(Body::Data {
        form,
        time: order.i64(*time),
        samples,
    })
}

/// The three counts must be there before n is judged, and n before the size.
fn check_group_packing(order: Order, body: &[u8]) -> Result<GroupPacking, Fault> {
    let (n, rest) = body.split_first_chunk::<4>().ok_or(Fault::Size)?;
    let (packing, rest) = rest.split_first_chunk::<4>().ok_or(Fault::Size)?;
    let (increment, offsets) = rest.split_first_chunk::<4>().ok_or(Fault::Size)?;
    let n = channel_count(order.i32(*n))?;
    let offsets = exactly::<4>(offsets, n)?;
    let packing = packing_of(order.i32(*packing))?;
    let increment = order.u32(*increment);
    if increment != 1 && increment as usize != n {
        return Err(Fault::Value);
    }
    if offsets.iter().any(|b| order.i32(*b) < 0) {
        return Err(Fault::Value);
    }
    Ok(GroupPacking {
        packing,
        increment,
        offsets: PerChannel::from_values(offsets.iter().map(|b| order.u32(*b))),
    })
}

fn check_frequencies(order: Order, body: &[u8]) -> Result<PerChannel<i64>, Fault> {
    let (n, rest) = body.split_first_chunk::<4>().ok_or(Fault::Size)?;
    let n = channel_count(order.i32(*n))?;
    let values = exactly::<8>(rest, n)?;
    Ok(PerChannel::from_values(
        values.iter().map(|b| order.i64(*b)),
    ))
}

fn check_gains(order: Order, body: &[u8]) -> Result<PerChannel<u32>, Fault> {
    let (n, rest) = body.split_first_chunk::<4>().ok_or(Fault::Size)?;
    let n = channel_count(order.i32(*n))?;
    let values = exactly::<4>(rest, n)?;
    for value in values {
        finite(order.u32(*value))?;
    }
    Ok(PerChannel::from_values(
        values.iter().map(|b| order.u32(*b)),
    ))
}

/// A text body is its length, the text, and no more zero bytes than the next
/// multiple of four needs. Padding is judged before the text.
pub fn check_text(order: Order, body: &[u8]) -> Result<&str, Fault> {
    let (len, rest) = body.split_first_chunk::<4>().ok_or(Fault::Size)?;
    let len = usize::try_from(order.i32(*len)).map_err(|_| Fault::Size)?;
    if rest.len() != len.next_multiple_of(4) {
        return Err(Fault::Size);
    }
    let (text, padding) = rest.split_at(len);
    if padding.iter().any(|b| *b != 0) {
        return Err(Fault::Padding);
    }
    std::str::from_utf8(text).map_err(|_| Fault::Text)
}

/// The body as exactly N bytes.
fn whole<const N: usize>(body: &[u8]) -> Result<[u8; N], Fault> {
    body.try_into().map_err(|_| Fault::Size)
}

/// The bytes as exactly n items of N bytes.
fn exactly<const N: usize>(bytes: &[u8], n: usize) -> Result<&[[u8; N]], Fault> {
    let (items, rest) = bytes.as_chunks::<N>();
    if items.len() == n && rest.is_empty() {
        Ok(items)
    } else {
        Err(Fault::Size)
    }
}

fn halves(bytes: [u8; 16]) -> [[u8; 8]; 2] {
    let [a, b, c, d, e, f, g, h, i, j, k, l, m, n, o, p] = bytes;
    [[a, b, c, d, e, f, g, h], [i, j, k, l, m, n, o, p]]
}

fn channel_count(n: i32) -> Result<usize, Fault> {
    usize::try_from(n)
        .ok()
        .filter(|n| (1..=MOST_CHANNELS).contains(n))
        .ok_or(Fault::Count)
}

fn packing_of(number: i32) -> Result<Packing, Fault> {
    Packing::from_number(number).ok_or(Fault::Value)
}

fn at_least(least: i64, value: i64) -> Result<i64, Fault> {
    if value >= least {
        Ok(value)
    } else {
        Err(Fault::Value)
    }
}

fn finite(pattern: u32) -> Result<u32, Fault> {
    if f32::from_bits(pattern).is_finite() {
        Ok(pattern)
    } else {
        Err(Fault::Value)
    }
}

fn above_zero(pattern: u32) -> Result<u32, Fault> {
    if f32::from_bits(finite(pattern)?) > 0.0 {
        Ok(pattern)
    } else {
        Err(Fault::Value)
    }
}
