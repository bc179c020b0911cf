//! Stand-in for `rand_xoshiro`: xoshiro256++ as published by Blackman and Vigna.
//!
//! A seed gives the four words as four SplitMix64 outputs; a child's words are four successive
//! outputs of its parent. Four zero words, given or drawn for a child, are replaced by those of seed
//! 0, as the crate does (document 02, K5).

use rand::{Error, RngCore, SeedableRng};

#[derive(Clone, Debug, PartialEq, Eq)]
pub struct Xoshiro256PlusPlus {
    words: [u64; 4],
}

impl Xoshiro256PlusPlus {
    /// The held words, for the oracle's state lines.
    pub fn words(&self) -> [u64; 4] {
        self.words
    }

    pub fn from_words(words: [u64; 4]) -> Self {
        if words == [0; 4] {
            return Self::seed_from_u64(0);
        }
        Self { words }
    }
}

impl RngCore for Xoshiro256PlusPlus {
    fn next_u64(&mut self) -> u64 {
        let s = &mut self.words;
        let output = s[0].wrapping_add(s[3]).rotate_left(23).wrapping_add(s[0]);
        let shifted = s[1] << 17;
        s[2] ^= s[0];
        s[3] ^= s[1];
        s[1] ^= s[2];
        s[0] ^= s[3];
        s[2] ^= shifted;
        s[3] = s[3].rotate_left(45);
        output
    }
}

impl SeedableRng for Xoshiro256PlusPlus {
    fn seed_from_u64(seed: u64) -> Self {
        let mut state = seed;
        Self {
            words: std::array::from_fn(|_| split_mix_64(&mut state)),
        }
    }

    fn from_rng<R: RngCore>(mut parent: R) -> Result<Self, Error> {
        Ok(Self::from_words(std::array::from_fn(|_| parent.next_u64())))
    }
}

/// One output of SplitMix64 (Steele, Lea and Flood; Vigna's constants).
fn split_mix_64(state: &mut u64) -> u64 {
    *state = state.wrapping_add(0x9e37_79b9_7f4a_7c15);
    let mut z = *state;
    z = (z ^ (z >> 30)).wrapping_mul(0xbf58_476d_1ce4_e5b9);
    z = (z ^ (z >> 27)).wrapping_mul(0x94d0_49bb_1331_11eb);
    z ^ (z >> 31)
}

#[cfg(test)]
mod tests {
    use super::*;

    #[test]
    fn words_one_to_four() {
        let mut generator = Xoshiro256PlusPlus::from_words([1, 2, 3, 4]);
        assert_eq!(generator.next_u64(), 41_943_041);
        assert_eq!(generator.next_u64(), 58_720_359);
    }

    #[test]
    fn four_zero_words_are_those_of_seed_0() {
        let seed_0 = Xoshiro256PlusPlus::seed_from_u64(0);
        assert_eq!(Xoshiro256PlusPlus::from_words([0; 4]), seed_0);
        assert_eq!(Xoshiro256PlusPlus::from_rng(Zeros).ok(), Some(seed_0));
        for place in 0..4 {
            let mut words = [0; 4];
            words[place] = 1;
            assert_eq!(Xoshiro256PlusPlus::from_words(words).words(), words);
        }
    }

    /// A parent whose outputs are all zero.
    struct Zeros;

    impl RngCore for Zeros {
        fn next_u64(&mut self) -> u64 {
            0
        }
    }
}
