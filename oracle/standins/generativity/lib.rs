//! Stand-in for `generativity`: a lifetime that no other simulation shares.

use std::marker::PhantomData;

/// Makes the lifetime neither longer nor shorter than it is.
type Invariant<'id> = PhantomData<fn(&'id ()) -> &'id ()>;

#[derive(Clone, Copy, Debug, Hash, PartialEq, Eq)]
pub struct Id<'id>(Invariant<'id>);

pub struct Guard<'id>(Invariant<'id>);

impl<'id> From<Guard<'id>> for Id<'id> {
    fn from(guard: Guard<'id>) -> Self {
        Id(guard.0)
    }
}

/// Runs `work` with a guard whose lifetime is its own.
pub fn with_guard<T>(work: impl for<'id> FnOnce(Guard<'id>) -> T) -> T {
    work(Guard(PhantomData))
}
