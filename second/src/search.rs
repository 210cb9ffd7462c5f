//! Looking for sync words, place by place.

use crate::frame::{look, Look};
use crate::order::Order;

/// The order whose sync word stands at the lowest place, if either stands
/// anywhere. It has to stand there whole.
pub fn find_order(stream: &[u8]) -> Option<Order> {
    for place in 0..stream.len() {
        for order in [Order::Big, Order::Little] {
            if stream[place..].starts_with(&order.sync()) {
                return Some(order);
            }
        }
    }
    None
}

/// The lowest place, from `from` on, that shows a complete or an unfinished
/// chunk. The last bytes of the stream count as one if a sync word begins with
/// them.
pub fn search(order: Order, stream: &[u8], from: usize) -> Option<usize> {
    for place in from..stream.len() {
        match look(order, stream, place) {
            Look::Complete(_) | Look::Unfinished => return Some(place),
            Look::NoSync | Look::Bad(_) => {}
        }
    }
    None
}
