//! Putting streams together, right or wrong: nothing is checked here.

use crate::body::{Body, Level};
use crate::kind::{Kind, Width};
use crate::order::Order;

/// The bytes of a body, number by number.
#[derive(Clone, Debug)]
pub struct Fields {
    order: Order,
    bytes: Vec<u8>,
}

impl Fields {
    pub fn new(order: Order) -> Self {
        Fields {
            order,
            bytes: Vec::new(),
        }
    }

    pub fn short(mut self, value: i16) -> Self {
        self.bytes.extend(self.order.put_i16(value));
        self
    }

    pub fn int(self, value: i32) -> Self {
        self.word(value as u32)
    }

    pub fn word(mut self, value: u32) -> Self {
        self.bytes.extend(self.order.put_u32(value));
        self
    }

    pub fn long(mut self, value: i64) -> Self {
        self.bytes.extend(self.order.put_i64(value));
        self
    }

    pub fn raw(mut self, bytes: &[u8]) -> Self {
        self.bytes.extend(bytes);
        self
    }

    pub fn shorts(self, values: &[i16]) -> Self {
        values.iter().fold(self, |f, v| f.short(*v))
    }

    pub fn ints(self, values: &[i32]) -> Self {
        values.iter().fold(self, |f, v| f.int(*v))
    }

    pub fn words(self, values: &[u32]) -> Self {
        values.iter().fold(self, |f, v| f.word(*v))
    }

    pub fn longs(self, values: &[i64]) -> Self {
        values.iter().fold(self, |f, v| f.long(*v))
    }

    pub fn bytes(self) -> Vec<u8> {
        self.bytes
    }
}

impl Body<'_> {
    /// The body of this kind that holds these values, in another order or the
    /// same one.
    pub fn bytes(&self, kind: Kind, from: Order, to: Order) -> Vec<u8> {
        let fields = Fields::new(to);
        match *self {
            Body::Data {
                form,
                time,
                samples,
            } => {
                let fields = fields.long(time);
                match form.width {
                    Width::Short => samples
                        .chunks_exact(2)
                        .fold(fields, |f, b| f.short(from.i16([b[0], b[1]]))),
                    Width::Float => samples
                        .chunks_exact(4)
                        .fold(fields, |f, b| f.word(from.u32([b[0], b[1], b[2], b[3]]))),
                }
            }
            Body::SinglePacking(packing) => fields.word(packing.number()),
            Body::SampleRate(number)
            | Body::GroupBandwidth(number)
            | Body::CentreFrequency(number) => fields.long(number),
            Body::Bandwidth { bandwidth, offset } => match kind {
                Kind::Bw => fields.long(bandwidth),
                _ => fields.long(bandwidth).long(offset),
            },
            Body::Level(
                Level::FullScale(pattern)
                | Level::TotalGain(pattern)
                | Level::FloatFullScale(pattern),
            ) => fields.word(pattern),
            Body::GroupPacking(layout) => fields
                .word(layout.channels() as u32)
                .word(layout.packing.number())
                .word(layout.increment)
                .words(layout.offsets.values()),
            Body::GroupFrequencies(list) => {
                fields.word(list.channels() as u32).longs(list.values())
            }
            Body::GroupGains(list) => fields.word(list.channels() as u32).words(list.values()),
            Body::FileStart(number) => fields.int(number),
            Body::HeaderEnd | Body::Discontinuity => fields,
            Body::Text(text) => {
                let padding = text.len().next_multiple_of(4) - text.len();
                fields
                    .word(text.len() as u32)
                    .raw(text.as_bytes())
                    .raw(&[0; 3][..padding])
            }
        }
        .bytes()
    }
}

/// A stream in one order, chunk by chunk.
#[derive(Clone, Debug)]
pub struct Composer {
    order: Order,
    bytes: Vec<u8>,
}

impl Composer {
    pub fn new(order: Order) -> Self {
        Composer {
            order,
            bytes: Vec::new(),
        }
    }

    pub fn order(&self) -> Order {
        self.order
    }

    pub fn len(&self) -> usize {
        self.bytes.len()
    }

    pub fn is_empty(&self) -> bool {
        self.bytes.is_empty()
    }

    pub fn bytes(&self) -> &[u8] {
        &self.bytes
    }

    pub fn into_bytes(self) -> Vec<u8> {
        self.bytes
    }

    /// Drops the bytes from `len` on.
    pub fn cut(&mut self, len: usize) -> &mut Self {
        self.bytes.truncate(len);
        self
    }

    pub fn raw(&mut self, bytes: &[u8]) -> &mut Self {
        self.bytes.extend(bytes);
        self
    }

    pub fn header(&mut self, code: u32, size: u32) -> &mut Self {
        self.bytes.extend(self.order.sync());
        self.bytes.extend(self.order.put_u32(code));
        self.bytes.extend(self.order.put_u32(size));
        self
    }

    pub fn chunk_of(&mut self, code: u32, body: &[u8]) -> &mut Self {
        self.header(code, body.len() as u32).raw(body)
    }

    pub fn chunk(&mut self, kind: Kind, body: &[u8]) -> &mut Self {
        self.chunk_of(kind.code(), body)
    }

    fn fields(&self) -> Fields {
        Fields::new(self.order)
    }

    /// IQDC, EOFH, or any kind with nothing in it.
    pub fn empty(&mut self, kind: Kind) -> &mut Self {
        self.chunk(kind, &[])
    }

    /// SIQP, SOFH.
    pub fn int(&mut self, kind: Kind, value: i32) -> &mut Self {
        let body = self.fields().int(value).bytes();
        self.chunk(kind, &body)
    }

    /// SR__, BW__, GCBW, CF__.
    pub fn long(&mut self, kind: Kind, value: i64) -> &mut Self {
        let body = self.fields().long(value).bytes();
        self.chunk(kind, &body)
    }

    pub fn bandwidth_offset(&mut self, bandwidth: i64, offset: i64) -> &mut Self {
        let body = self.fields().longs(&[bandwidth, offset]).bytes();
        self.chunk(Kind::Bwof, &body)
    }

    /// dBFS, dBTG, FFS_.
    pub fn level(&mut self, kind: Kind, value: f32) -> &mut Self {
        self.pattern(kind, value.to_bits())
    }

    pub fn pattern(&mut self, kind: Kind, pattern: u32) -> &mut Self {
        let body = self.fields().word(pattern).bytes();
        self.chunk(kind, &body)
    }

    pub fn group_packing(&mut self, packing: i32, increment: i32, offsets: &[i32]) -> &mut Self {
        let body = self
            .fields()
            .ints(&[offsets.len() as i32, packing, increment])
            .ints(offsets)
            .bytes();
        self.chunk(Kind::Giqp, &body)
    }

    pub fn group_frequencies(&mut self, values: &[i64]) -> &mut Self {
        let body = self.fields().int(values.len() as i32).longs(values).bytes();
        self.chunk(Kind::Gcf, &body)
    }

    pub fn group_gains(&mut self, values: &[f32]) -> &mut Self {
        let patterns: Vec<u32> = values.iter().map(|v| v.to_bits()).collect();
        let body = self
            .fields()
            .int(values.len() as i32)
            .words(&patterns)
            .bytes();
        self.chunk(Kind::Grg, &body)
    }

    pub fn text(&mut self, text: &str) -> &mut Self {
        let body = text_body(self.order, text.as_bytes());
        self.chunk(Kind::Text, &body)
    }

    /// SSNC, SSNR, GSNC.
    pub fn shorts(&mut self, kind: Kind, time: i64, numbers: &[i16]) -> &mut Self {
        let body = self.fields().long(time).shorts(numbers).bytes();
        self.chunk(kind, &body)
    }

    /// SFNC, SFNR, GFNC.
    pub fn patterns(&mut self, kind: Kind, time: i64, patterns: &[u32]) -> &mut Self {
        let body = self.fields().long(time).words(patterns).bytes();
        self.chunk(kind, &body)
    }
}

/// A text body with its length in front and zero padding behind.
pub fn text_body(order: Order, text: &[u8]) -> Vec<u8> {
    let padding = text.len().next_multiple_of(4) - text.len();
    Fields::new(order)
        .int(text.len() as i32)
        .raw(text)
        .raw(&[0; 3][..padding])
        .bytes()
}
