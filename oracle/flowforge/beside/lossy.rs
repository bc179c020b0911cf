// Beside the published lossy.rs.

/// What a sender holds while it is on.
pub struct EnabledView<'c, C> {
    pub started: Time,
    pub greatest_ack: u64,
    pub window: u32,
    pub policy: &'c C,
}

impl<C, F, G, E, L> LossySender<'_, '_, C, F, G, E, L> {
    pub fn sent(&self) -> u64 {
        match &self.state {
            State::WaitingForEnable(off) => off.packets_sent,
            State::Enabled(on) => on.packets_sent,
        }
    }

    pub fn enabled(&self) -> Option<EnabledView<'_, C>> {
        match &self.state {
            State::WaitingForEnable(_) => None,
            State::Enabled(on) => Some(EnabledView {
                started: on.started,
                greatest_ack: on.greatest_ack,
                window: on.cwnd,
                policy: &on.cca,
            }),
        }
    }

    pub fn meter(&self) -> &F {
        &self.flow_meter
    }

    pub fn words(&self) -> [u64; 4] {
        self.rng.words()
    }
}
