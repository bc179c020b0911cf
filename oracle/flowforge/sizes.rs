//! The packet bits of each sender: a packet of the patched copy has its sender's. The published packet has
//! one size and reads nothing here.

use std::cell::RefCell;

use crate::{components::packet::Packet, look::sender_of, quantities::Information};

thread_local! {
    static SIZES: RefCell<Vec<Information>> = const { RefCell::new(Vec::new()) };
}

/// Sets each sender's, before a simulation is built and never while one runs.
pub fn set(sizes: Vec<Information>) {
    SIZES.set(sizes);
}

/// The size of a packet.
pub fn of<E>(packet: &Packet<'_, E>) -> Information {
    SIZES.with_borrow(|sizes| sizes[sender_of(packet)])
}
