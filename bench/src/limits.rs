//! The search as std alone has it, and as a plain loop.

use crate::fast::begun_word;
use second::frame::{look, Look};
use second::Order;
use std::io::BufRead;

/// The search with std's own memchr, which stands behind `skip_until`.
pub fn by_memchr(order: Order, s: &[u8]) -> usize {
    let first = order.sync()[0];
    let mut at = 0;
    loop {
        let mut rest = &s[at..];
        let passed = rest.skip_until(first).expect("a slice can be read");
        at += passed;
        if passed == 0 || s[at - 1] != first {
            return s.len();
        }
        if let Look::Complete(_) | Look::Unfinished = look(order, s, at - 1) {
            return at - 1;
        }
    }
}

/// The search with the iterators of slices.
pub fn by_windows(order: Order, s: &[u8]) -> usize {
    let word = order.sync();
    let stops = |p: &usize| matches!(look(order, s, *p), Look::Complete(_) | Look::Unfinished);
    let places = s.windows(4).enumerate().filter(|(_, w)| *w == word);
    let found = places.map(|(p, _)| p).find(stops);
    found.or_else(|| begun_word(order, s, 0)).unwrap_or(s.len())
}

/// The search place by place, byte by byte.
pub fn by_bytes(order: Order, s: &[u8]) -> usize {
    let word = order.sync();
    let mut p = 0;
    while p + 4 <= s.len() {
        let mut k = 0;
        while k < 4 && s[p + k] == word[k] {
            k += 1;
        }
        if k == 4 {
            if let Look::Complete(_) | Look::Unfinished = look(order, s, p) {
                return p;
            }
        }
        p += 1;
    }
    begun_word(order, s, p).unwrap_or(s.len())
}

#[cfg(test)]
mod tests {
    use super::*;
    use second::make::make;

    /// Each finds the place that the plain search finds, on every beginning of some streams.
    #[test]
    fn all_are_the_search() {
        for stream in (0..300).map(make).filter(|s| s.len() < 600) {
            for len in 0..=stream.len() {
                for order in [Order::Big, Order::Little] {
                    let s = &stream[..len];
                    let place = second::search(order, s, 0).unwrap_or(len);
                    for search in [by_memchr, by_windows, by_bytes] {
                        assert_eq!(search(order, s), place, "{s:02X?}");
                    }
                }
            }
        }
    }
}
