//! Stand-in for `components`: the parts that the listed files hold.

pub mod bouncer;
pub mod link;
pub mod packet;
pub mod senders;
pub mod ticker;
pub mod toggler;
