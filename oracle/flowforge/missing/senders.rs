//! Stand-in for `components::senders`.

pub mod lossy;
