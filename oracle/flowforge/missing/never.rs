//! Stand-in for `util::never`: a type without values, for parts that receive nothing.

#[derive(Debug)]
pub enum Never {}
