//! The messages of `ticks` with the feature `lean`: as those of `effect.rs`, but that nothing is counted.

use derive_more::{From, TryInto};

use crate::{
    components::{packet::Packet, senders::lossy::LossySenderEffect},
    util::{never::Never, OfLifetime},
};

pub struct Effects;

impl OfLifetime for Effects {
    type Of<'sim> = Effect<'sim>;
}

#[derive(From, TryInto)]
pub enum Effect<'sim> {
    Sender(LossySenderEffect<'sim, Effect<'sim>>),
    /// To a link or to the bouncer.
    Packet(Packet<'sim, Effect<'sim>>),
    Nobody(Never),
}
