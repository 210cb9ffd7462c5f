//! How large a table of a stream's items has to be.

use crate::order::Order;

/// Rows enough for the items of every stream of so many bytes. A chunk has
/// twelve bytes at least, and before the next one there may be one item more,
/// which has a byte at least; behind the last whole thirteen bytes there may
/// be two items.
pub fn rows_for(bytes: u64) -> u64 {
    let thirteens = bytes / 13;
    thirteens + thirteens + 2
}

/// So many bytes with as many items as there can be: a byte that is skipped and
/// a chunk without a body, in turn.
pub fn fullest(order: Order, bytes: usize) -> Vec<u8> {
    let mut turn = vec![0];
    turn.extend(order.sync());
    turn.extend([0; 8]);
    turn.into_iter().cycle().take(bytes).collect()
}
