//! Files that hold many byte strings.
//!
//! First their number, then for each its length and its bytes. Numbers are
//! unsigned, of 32 bits, with the lowest byte first.

use std::io::{self, Write};

/// Writes one number of such a file.
pub fn put_number(number: usize, out: &mut impl Write) -> io::Result<()> {
    let number = u32::try_from(number).map_err(io::Error::other)?;
    out.write_all(&number.to_le_bytes())
}

/// Writes one string, after the number of all.
pub fn put_string(string: &[u8], out: &mut impl Write) -> io::Result<()> {
    put_number(string.len(), out)?;
    out.write_all(string)
}

/// The strings of a file; None unless it ends with the last of them.
pub fn unpack(file: &[u8]) -> Option<Vec<&[u8]>> {
    let (count, mut rest) = number(file)?;
    let mut strings = Vec::new();
    for _ in 0..count {
        let (len, after) = number(rest)?;
        let (string, after) = after.split_at_checked(len)?;
        strings.push(string);
        rest = after;
    }
    rest.is_empty().then_some(strings)
}

fn number(bytes: &[u8]) -> Option<(usize, &[u8])> {
    let (number, rest) = bytes.split_first_chunk::<4>()?;
    Some((u32::from_le_bytes(*number) as usize, rest))
}

#[cfg(test)]
mod tests {
    use super::*;

    #[test]
    fn packed_and_unpacked() {
        let mut file = Vec::new();
        put_number(2, &mut file).unwrap();
        put_string(b"ab", &mut file).unwrap();
        put_string(b"", &mut file).unwrap();
        assert_eq!(file, [2, 0, 0, 0, 2, 0, 0, 0, b'a', b'b', 0, 0, 0, 0]);
        assert_eq!(unpack(&file), Some(vec![&b"ab"[..], b""]));
        assert_eq!(unpack(&file[..13]), None);
        file.push(0);
        assert_eq!(unpack(&file), None);
    }
}
