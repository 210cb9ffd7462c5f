//! Bodies of every kind, well-formed or with a fault of one's choice.

use crate::body::Fault;
use crate::compose::{text_body, Fields};
use crate::kind::{Kind, Width};
use crate::order::Order;
use crate::rng::Rng;
use crate::utf8;
use crate::values;

/// A well-formed data body: `pairs` pairs, or as many bytes of reals (half as
/// many numbers for SFNR, so that odd counts come up).
pub fn data(rng: &mut Rng, order: Order, kind: Kind, pairs: usize) -> Vec<u8> {
    let form = kind.data_form().expect("a data kind");
    let fields = Fields::new(order).long(values::long(rng));
    match form.width {
        Width::Short => (0..2 * pairs).fold(fields, |f, _| f.short(values::short(rng))),
        Width::Float => {
            let count = if form.complex { 2 * pairs } else { pairs };
            (0..count).fold(fields, |f, _| f.word(values::pattern(rng)))
        }
    }
    .bytes()
}

pub fn good(rng: &mut Rng, order: Order, kind: Kind) -> Vec<u8> {
    let fields = Fields::new(order);
    match kind {
        Kind::Ssnc | Kind::Ssnr | Kind::Sfnc | Kind::Sfnr | Kind::Gsnc | Kind::Gfnc => {
            let pairs = rng.below(7);
            data(rng, order, kind, pairs)
        }
        Kind::Siqp => fields.int(rng.below(2) as i32).bytes(),
        Kind::Sr => fields.long(values::long_from(rng, 1)).bytes(),
        Kind::Bw | Kind::Gcbw => fields.long(values::long_from(rng, 0)).bytes(),
        Kind::Bwof => {
            let bandwidth = values::long_from(rng, 0);
            fields.long(bandwidth).long(values::long(rng)).bytes()
        }
        Kind::Cf => fields.long(values::long(rng)).bytes(),
        Kind::Dbfs => fields.word(values::finite(rng)).bytes(),
        Kind::Dbtg => fields.word(values::gain(rng)).bytes(),
        Kind::Ffs => fields.word(values::above_zero(rng)).bytes(),
        Kind::Giqp => {
            let n = values::channels(rng) as i32;
            let increment = rng.pick(&[1, n]);
            let fields = fields.ints(&[n, rng.below(2) as i32, increment]);
            (0..n)
                .fold(fields, |f, _| f.int(values::int(rng) & i32::MAX))
                .bytes()
        }
        Kind::Gcf => {
            let n = values::channels(rng);
            frequencies(rng, order, n)
        }
        Kind::Grg => {
            let n = values::channels(rng);
            gains(rng, order, n)
        }
        Kind::Sofh => fields.int(values::int(rng)).bytes(),
        Kind::Eofh | Kind::Iqdc => Vec::new(),
        Kind::Text => {
            let most = rng.below(40);
            text_body(order, &utf8::valid(rng, most))
        }
    }
}

pub fn frequencies(rng: &mut Rng, order: Order, n: usize) -> Vec<u8> {
    let fields = Fields::new(order).int(n as i32);
    (0..n)
        .fold(fields, |f, _| f.long(values::long(rng)))
        .bytes()
}

pub fn gains(rng: &mut Rng, order: Order, n: usize) -> Vec<u8> {
    let fields = Fields::new(order).int(n as i32);
    (0..n)
        .fold(fields, |f, _| f.word(values::gain(rng)))
        .bytes()
}

/// A body of this kind that is refused for this fault, which must be one the
/// kind can have.
pub fn bad(rng: &mut Rng, order: Order, kind: Kind, fault: Fault) -> Vec<u8> {
    match fault {
        Fault::Size => wrong_size(rng, order, kind),
        Fault::Value => wrong_value(rng, order, kind),
        Fault::Count => {
            let mut body = good(rng, order, kind);
            // Any size that holds the counts will do: n is judged first.
            let least = if kind == Kind::Giqp { 12 } else { 4 };
            let len = least + 4 * rng.below(20);
            body.resize(len, 0);
            body[..4].copy_from_slice(&order.put_u32(values::not_channels(rng) as u32));
            body
        }
        Fault::Padding => wrong_padding(rng, order),
        Fault::Text => {
            let most = rng.below(30);
            text_body(order, &utf8::damaged(rng, most))
        }
    }
}

fn wrong_size(rng: &mut Rng, order: Order, kind: Kind) -> Vec<u8> {
    match kind {
        Kind::Ssnc | Kind::Ssnr | Kind::Sfnr | Kind::Gsnc => rng.pick(&[&[][..], &[7; 4]]).to_vec(),
        Kind::Sfnc | Kind::Gfnc => {
            let mut body = good(rng, order, kind);
            // No room for the time, or a pair short of one number.
            match rng.below(3) {
                0 => body.truncate(4),
                _ => body.extend([0, 0, 0, 1]),
            }
            body
        }
        Kind::Giqp | Kind::Gcf | Kind::Grg if rng.chance(2) => {
            // Too small even for the counts.
            let words = if kind == Kind::Giqp { rng.below(3) } else { 0 };
            rng.bytes(4 * words)
        }
        Kind::Text => wrong_text_size(rng, order),
        _ => {
            let mut body = good(rng, order, kind);
            let words = body.len() / 4;
            let wrong = loop {
                let wrong = rng.pick(&[0, words.saturating_sub(1), words + 1, words + 2]);
                if wrong != words {
                    break wrong;
                }
            };
            body.resize(4 * wrong, 0);
            body
        }
    }
}

fn wrong_text_size(rng: &mut Rng, order: Order) -> Vec<u8> {
    let mut body = good(rng, order, Kind::Text);
    let held = (body.len() - 4) as i32;
    match rng.below(4) {
        0 => return Vec::new(),
        // One word of zeros more than the padding needs.
        1 => body.extend([0; 4]),
        _ => {
            let len = rng.pick(&[-1, -4, i32::MIN, held + 1, held + 4, i32::MAX, i32::MAX - 3]);
            body[..4].copy_from_slice(&order.put_u32(len as u32));
        }
    }
    body
}

fn wrong_value(rng: &mut Rng, order: Order, kind: Kind) -> Vec<u8> {
    let fields = Fields::new(order);
    match kind {
        Kind::Siqp => fields
            .int(rng.pick(&[2, 3, -1, 256, 1 << 24, i32::MIN, i32::MAX]))
            .bytes(),
        Kind::Sr => fields.long(values::long_below(rng, 1)).bytes(),
        Kind::Bw | Kind::Gcbw => fields.long(values::long_below(rng, 0)).bytes(),
        Kind::Bwof => {
            let bandwidth = values::long_below(rng, 0);
            fields.long(bandwidth).long(values::long(rng)).bytes()
        }
        Kind::Dbfs | Kind::Dbtg => fields.word(values::not_finite(rng)).bytes(),
        Kind::Ffs => fields.word(values::not_above_zero(rng)).bytes(),
        Kind::Giqp => {
            let mut body = good(rng, order, kind);
            let n = (body.len() - 12) / 4;
            let (field, value) = match rng.below(3) {
                0 => (1, rng.pick(&[2, -1, 1 << 24])),
                1 => (2, rng.pick(&[0, -1, n as i32 + 1, i32::MIN])),
                _ => (3 + rng.below(n), rng.pick(&[-1, i32::MIN])),
            };
            body[4 * field..4 * field + 4].copy_from_slice(&order.put_u32(value as u32));
            body
        }
        Kind::Grg => {
            let mut body = good(rng, order, kind);
            let field = 1 + rng.below(body.len() / 4 - 1);
            let value = values::not_finite(rng);
            body[4 * field..4 * field + 4].copy_from_slice(&order.put_u32(value));
            body
        }
        _ => unreachable!("{} allows all values", kind.name()),
    }
}

/// Padding that isn't zero, behind text that is good or not.
fn wrong_padding(rng: &mut Rng, order: Order) -> Vec<u8> {
    let most = rng.below(20);
    let mut text = if rng.chance(3) {
        utf8::damaged(rng, most)
    } else {
        utf8::valid(rng, most)
    };
    if text.len().is_multiple_of(4) {
        text.push(b'.');
    }
    let padding = text.len().next_multiple_of(4) - text.len();
    let mut body = text_body(order, &text);
    let place = body.len() - 1 - rng.below(padding);
    body[place] = rng.byte().max(1);
    body
}
