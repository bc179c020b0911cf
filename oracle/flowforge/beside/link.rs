// Beside the published link.rs.

impl<'sim, E, L> Link<'sim, E, L> {
    pub fn earliest_start(&self) -> Time {
        self.earliest_transmit
    }

    pub fn waiting_bits(&self) -> u64 {
        self.buffer_contains.bits()
    }

    pub fn waiting(&self) -> impl Iterator<Item = &Packet<'sim, E>> {
        self.buffer.iter()
    }

    pub fn on_line(&self) -> impl Iterator<Item = &(Packet<'sim, E>, Time)> {
        self.transmitting.iter()
    }

    pub fn words(&self) -> [u64; 4] {
        self.rng.words()
    }
}
