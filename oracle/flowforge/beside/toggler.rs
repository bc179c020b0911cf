// Beside the published toggler.rs.

impl<E> Toggler<'_, E> {
    pub fn on(&self) -> bool {
        self.enabled
    }

    pub fn next_toggle(&self) -> Time {
        self.next_toggle
    }

    pub fn words(&self) -> [u64; 4] {
        self.rng.words()
    }
}
