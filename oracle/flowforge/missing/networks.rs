//! Stand-in for `networks`.

pub mod remy;
