//! Stand-in for `util`. `logging` goes first: the others use its macro.

#[macro_use]
pub mod logging;
pub mod average;
pub mod meters;
pub mod never;
pub mod rand;

/// A family of types, one for each lifetime: the effects of a simulation have its lifetime.
pub trait OfLifetime {
    type Of<'a>: 'a;
}
