//! Stand-in for `rand_distr`: the uniform draw as document 01 words it.
//!
//! The published redraw loop has no end of its own, and nothing outside it sees its tries. So the
//! count of document 01 is kept here: while `limit_tries` is in force, the eighth value in a row
//! that is not positive unwinds with `Spent`, and the oracle catches it as stop 8.

pub use rand::Distribution;

use std::cell::Cell;

/// Tries that a positive draw has.
const TRIES: u32 = 8;

/// What a draw unwinds with when its tries are spent.
pub struct Spent;

thread_local! {
    /// Values in a row that were not positive; `None` while no limit is in force.
    static FAILED: Cell<Option<u32>> = const { Cell::new(None) };
}

/// Runs `draws` with the limit in force. Every draw in it must be one that asks for a positive
/// value, as those of a build and of a toggler's tick are: a positive value starts the count anew.
pub fn limit_tries<T>(draws: impl FnOnce() -> T) -> T {
    struct Lift;
    impl Drop for Lift {
        fn drop(&mut self) {
            FAILED.set(None);
        }
    }
    FAILED.set(Some(0));
    let _lift = Lift;
    draws()
}

fn count_try(value: f64) {
    let Some(failed) = FAILED.get() else { return };
    let failed = if value > 0. { 0 } else { failed + 1 };
    FAILED.set(Some(failed));
    if failed == TRIES {
        std::panic::resume_unwind(Box::new(Spent));
    }
}

/// The sample in [0, 1) that an output gives: k / 2^52, k the output divided by 4,096.
pub fn unit_sample(output: u64) -> f64 {
    (output / 4096) as f64 / (1_u64 << 52) as f64
}

pub mod uniform {
    use rand::Rng;

    /// A type that `Uniform` draws.
    pub trait SampleUniform: Copy {
        fn draw<R: Rng + ?Sized>(low: Self, high: Self, rng: &mut R) -> Self;
    }

    impl SampleUniform for f64 {
        fn draw<R: Rng + ?Sized>(low: f64, high: f64, rng: &mut R) -> f64 {
            let value = crate::unit_sample(rng.next_u64()) * (high - low) + low;
            crate::count_try(value);
            value
        }
    }

    macro_rules! left_out {
        ($($whole:ty)*) => {$(
            impl SampleUniform for $whole {
                fn draw<R: Rng + ?Sized>(_: $whole, _: $whole, _: &mut R) -> $whole {
                    unimplemented!("whole numbers are drawn only by network distributions")
                }
            }
        )*};
    }
    left_out!(u32 u64);
}

/// A draw from `low` to `high`.
pub struct Uniform<T> {
    low: T,
    high: T,
}

impl<T> Uniform<T> {
    pub fn new(low: T, high: T) -> Self {
        Self { low, high }
    }
}

impl<T: uniform::SampleUniform> Distribution<T> for Uniform<T> {
    fn sample<R: rand::Rng + ?Sized>(&self, rng: &mut R) -> T {
        T::draw(self.low, self.high, rng)
    }
}

/// A distribution that document 01 leaves out: the name exists, and it can't be made.
macro_rules! left_out {
    ($($name:ident($($argument:ident),*))*) => {$(
        pub struct $name(());

        impl $name {
            pub fn new($($argument: f64),*) -> Result<Self, &'static str> {
                let _ = ($($argument,)*);
                Err("document 01 leaves this distribution out")
            }
        }

        impl Distribution<f64> for $name {
            fn sample<R: rand::Rng + ?Sized>(&self, _rng: &mut R) -> f64 {
                unreachable!("none is ever made")
            }
        }
    )*};
}
left_out!(Normal(mean, deviation) Exp(rate));

pub mod num_traits {
    /// The one operation of whole numbers that the published bounds lean on.
    pub trait PrimInt: Copy + std::ops::Add<Output = Self> {}

    impl PrimInt for u32 {}
    impl PrimInt for u64 {}
}

#[cfg(test)]
mod tests {
    use super::*;

    #[test]
    fn samples() {
        assert_eq!(unit_sample(4095), 0.);
        assert_eq!(unit_sample(41_943_041), 10_240. / (1_u64 << 52) as f64);
    }
}
