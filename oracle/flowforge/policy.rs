//! Document 01's three policies as FlowForge's congestion control (`Cca`).
//!
//! A sender makes a new one each time it is switched on, and drops it when switched off. The trait
//! gives no window to the policy, so the policy keeps its own; it is always the sender's.

use text::description::Policy as Kind;

use crate::{
    quantities::{seconds, Time},
    util::{logging::Logger, rand::Rng},
    AckReceived, Cca, PacketSent,
};

#[derive(Debug)]
pub struct Policy {
    kind: Kind,
    window: u32,
    timer: Option<Time>,
}

impl Policy {
    pub fn new(kind: Kind) -> Policy {
        let window = match kind {
            Kind::Held { window } => window,
            Kind::Grown { first, .. } => first,
            Kind::Timed { .. } => 1,
        };
        Policy {
            kind,
            window,
            timer: None,
        }
    }

    pub fn timer(&self) -> Option<Time> {
        self.timer
    }
}

impl Cca for Policy {
    fn initial_cwnd(&self, _time: Time) -> u32 {
        self.window
    }

    fn next_tick(&self, _time: Time) -> Option<Time> {
        self.timer
    }

    /// The timer has come: it is the clock, which the trait doesn't give here.
    fn tick(&mut self, _rng: &mut Rng, _logger: &mut impl Logger) -> u32 {
        if let (Kind::Timed { gap, .. }, Some(clock)) = (self.kind, self.timer) {
            self.window = (self.window / 2).max(1);
            self.timer = Some(clock + seconds(gap));
        }
        self.window
    }

    fn packet_sent(
        &mut self,
        packet: PacketSent,
        _rng: &mut Rng,
        _logger: &mut impl Logger,
    ) -> u32 {
        if let (Kind::Timed { gap, .. }, None) = (self.kind, self.timer) {
            self.timer = Some(packet.sent_time + seconds(gap));
        }
        self.window
    }

    fn ack_received(
        &mut self,
        _ack: AckReceived,
        _rng: &mut Rng,
        _logger: &mut impl Logger,
    ) -> u32 {
        if let Kind::Grown { most, .. } | Kind::Timed { most, .. } = self.kind {
            self.window = (self.window + 1).min(most);
        }
        self.window
    }
}
