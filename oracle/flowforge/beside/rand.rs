// Beside the published rand.rs.

impl Rng {
    pub fn words(&self) -> [u64; 4] {
        self.rng.words()
    }
}
