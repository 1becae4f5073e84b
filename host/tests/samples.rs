//! The reference on a real order book and its orders.

use inkrowan_host::reference;
use inkrowan_host::samples::{orders, BOOK};

#[test]
fn the_order_book_is_sound_and_its_orders_are_accepted() {
    assert_eq!(reference::check(BOOK), Ok(()));
    let orders = orders();
    assert_eq!(orders.len(), 50);
    for order in orders {
        reference::read(BOOK, order, 12_288).expect("an order is accepted");
    }
}
