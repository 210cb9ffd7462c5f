//! The writer: records to chunks.

use crate::body::Fault;
use crate::check::check;
use crate::frame::size_is_good;
use crate::kind::Kind;
use crate::order::Order;

#[derive(Clone, Copy, Debug, PartialEq, Eq)]
pub enum WriteRefusal {
    /// The place lies past the end of the output.
    Place,
    /// The body's size is not one a chunk can have.
    Size,
    /// The type is known and the body isn't one of its kind.
    Malformed(Fault),
    /// The chunk doesn't fit into what is left of the output.
    Room,
}

impl WriteRefusal {
    pub const fn number(self) -> u32 {
        match self {
            WriteRefusal::Place => 2,
            WriteRefusal::Size => 32,
            WriteRefusal::Malformed(fault) => fault.number(),
            WriteRefusal::Room => 31,
        }
    }
}

/// Adds one record to `out` as a chunk and gives the body's size. A refused
/// record adds nothing. Whether a group chunk is covered is not asked here,
/// as that depends on other records.
pub fn write_record(
    order: Order,
    code: u32,
    body: &[u8],
    out: &mut Vec<u8>,
) -> Result<usize, WriteRefusal> {
    let size = u32::try_from(body.len())
        .ok()
        .filter(|size| size_is_good(*size))
        .ok_or(WriteRefusal::Size)?;
    if let Some(kind) = Kind::from_code(code) {
        check(order, kind, body).map_err(WriteRefusal::Malformed)?;
    }
    out.extend(order.sync());
    out.extend(order.put_u32(code));
    out.extend(order.put_u32(size));
    out.extend(body);
    Ok(body.len())
}

/// Writes one record at a place of `out` and gives the place after it. A
/// refusal leaves the output as it was.
pub fn write_at(
    order: Order,
    code: u32,
    body: &[u8],
    out: &mut [u8],
    place: usize,
) -> Result<usize, WriteRefusal> {
    let rest = out.get_mut(place..).ok_or(WriteRefusal::Place)?;
    let mut chunk = Vec::new();
    write_record(order, code, body, &mut chunk)?;
    rest.get_mut(..chunk.len())
        .ok_or(WriteRefusal::Room)?
        .copy_from_slice(&chunk);
    Ok(place + chunk.len())
}
