//! The messages of the simulation. FlowForge leaves their type to its caller, so the harness
//! learns here which messages arrive: a packet that leaves a line and is lost reaches no part.

use std::cell::Cell;

use crate::{
    components::{packet::Packet, senders::lossy::LossySenderEffect},
    util::{never::Never, OfLifetime},
};

pub struct Effects;

impl OfLifetime for Effects {
    type Of<'sim> = Effect<'sim>;
}

pub enum Effect<'sim> {
    Sender(LossySenderEffect<'sim, Effect<'sim>>),
    /// To a link or to the bouncer.
    Packet(Packet<'sim, Effect<'sim>>),
    Nobody(Never),
}

/// How many packets have arrived.
#[derive(Clone, Copy, Debug, PartialEq)]
pub struct Arrived {
    pub at_senders: u64,
    /// At the links and the bouncer.
    pub on_the_way: u64,
}

impl Arrived {
    const NONE: Arrived = Arrived {
        at_senders: 0,
        on_the_way: 0,
    };
}

thread_local! {
    static ARRIVED: Cell<Arrived> = const { Cell::new(Arrived::NONE) };
}

/// What has arrived since this was asked last, in all simulations of this thread.
pub fn arrived() -> Arrived {
    ARRIVED.replace(Arrived::NONE)
}

fn count(one: impl FnOnce(&mut Arrived)) {
    let mut arrived = ARRIVED.get();
    one(&mut arrived);
    ARRIVED.set(arrived);
}

impl<'sim> From<LossySenderEffect<'sim, Effect<'sim>>> for Effect<'sim> {
    fn from(effect: LossySenderEffect<'sim, Effect<'sim>>) -> Self {
        Effect::Sender(effect)
    }
}

impl<'sim> From<Packet<'sim, Effect<'sim>>> for Effect<'sim> {
    fn from(packet: Packet<'sim, Effect<'sim>>) -> Self {
        Effect::Packet(packet)
    }
}

impl From<Never> for Effect<'_> {
    fn from(never: Never) -> Self {
        Effect::Nobody(never)
    }
}

/// A message that came to a part of another kind.
pub struct Misdirected;

// The simulator unwraps a message just before the receiving part gets it.
impl<'sim> TryFrom<Effect<'sim>> for LossySenderEffect<'sim, Effect<'sim>> {
    type Error = Misdirected;

    fn try_from(effect: Effect<'sim>) -> Result<Self, Misdirected> {
        let Effect::Sender(effect) = effect else {
            return Err(Misdirected);
        };
        if matches!(effect, LossySenderEffect::Packet(_)) {
            count(|arrived| arrived.at_senders += 1);
        }
        Ok(effect)
    }
}

impl<'sim> TryFrom<Effect<'sim>> for Packet<'sim, Effect<'sim>> {
    type Error = Misdirected;

    fn try_from(effect: Effect<'sim>) -> Result<Self, Misdirected> {
        let Effect::Packet(packet) = effect else {
            return Err(Misdirected);
        };
        count(|arrived| arrived.on_the_way += 1);
        Ok(packet)
    }
}

impl TryFrom<Effect<'_>> for Never {
    type Error = Misdirected;

    fn try_from(effect: Effect<'_>) -> Result<Self, Misdirected> {
        match effect {
            Effect::Nobody(never) => Ok(never),
            _ => Err(Misdirected),
        }
    }
}
