//! A real order book of 9,124 bytes and fifty orders.

pub const BOOK: &[u8] = include_bytes!("../samples/order44.book");
const ORDERS: &[u8] = include_bytes!("../samples/order44.msgs");

/// The orders; in the file each stands behind a 2-byte little-endian length.
pub fn orders() -> Vec<&'static [u8]> {
    let mut orders = vec![];
    let mut rest = ORDERS;
    while !rest.is_empty() {
        let length = usize::from(u16::from_le_bytes([rest[0], rest[1]]));
        orders.push(&rest[2..2 + length]);
        rest = &rest[2 + length..];
    }
    orders
}
