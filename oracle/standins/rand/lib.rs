//! Stand-in for `rand`: the traits that the published files name, nothing more.
//!
//! How a number is drawn stands in `rand_xoshiro` (words) and `rand_distr` (samples).

/// A source of 64-bit words.
pub trait RngCore {
    fn next_u64(&mut self) -> u64;
}

impl<R: RngCore + ?Sized> RngCore for &mut R {
    fn next_u64(&mut self) -> u64 {
        (**self).next_u64()
    }
}

/// Something that a source of words can be asked for.
pub trait Distribution<T> {
    fn sample<R: Rng + ?Sized>(&self, rng: &mut R) -> T;
}

impl<T, D: Distribution<T> + ?Sized> Distribution<T> for &D {
    fn sample<R: Rng + ?Sized>(&self, rng: &mut R) -> T {
        (**self).sample(rng)
    }
}

pub trait Rng: RngCore {
    fn sample<T, D: Distribution<T>>(&mut self, distribution: D) -> T {
        distribution.sample(self)
    }
}

impl<R: RngCore + ?Sized> Rng for R {}

/// Why a generator could not be made: there is no such reason here.
#[derive(Debug)]
pub enum Error {}

pub trait SeedableRng: Sized {
    fn seed_from_u64(seed: u64) -> Self;
    fn from_rng<R: RngCore>(parent: R) -> Result<Self, Error>;
}

pub mod prelude {
    pub use crate::{Distribution, Rng, RngCore, SeedableRng};
}

pub mod seq {
    /// The network never shuffles.
    pub trait SliceRandom {
        fn shuffle<R: crate::Rng + ?Sized>(&mut self, rng: &mut R);
    }

    impl<T> SliceRandom for [T] {
        fn shuffle<R: crate::Rng + ?Sized>(&mut self, _rng: &mut R) {
            unimplemented!("no part of the network shuffles")
        }
    }
}
