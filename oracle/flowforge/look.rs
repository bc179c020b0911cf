//! Reads the whole held state out of a simulator.

use text::held::{
    Enabled, Held, Link as HeldLink, Meter, Packet as HeldPacket, Sender, Toggler as HeldToggler,
    Transit, Waiting,
};

use crate::{
    components::packet::{Ends, Packet},
    policy::Policy,
    util::meters::AverageFlowMeter,
    wiring::{LinkPart, SenderPart, Simulation, TogglerPart},
};

/// What a part number stands for.
#[derive(Clone, Copy, Debug, PartialEq)]
pub enum Part {
    /// The link, or with 1 the one of the return line.
    Link(usize),
    Sender(usize),
    Toggler(usize),
    Bouncer,
}

/// The parts of a network, as `wiring::fill` inserts them.
#[derive(Clone, Copy)]
pub struct Parts {
    pub senders: usize,
    /// There is a return line.
    pub back: bool,
}

impl Parts {
    pub fn of(self, number: usize) -> Part {
        let bouncer = 2 * self.senders + 1;
        match number {
            0 => Part::Link(0),
            last if last == bouncer => Part::Bouncer,
            last if last == bouncer + 1 => Part::Link(1),
            odd if odd % 2 == 1 => Part::Sender(odd / 2),
            even => Part::Toggler(even / 2 - 1),
        }
    }

    fn number(self, part: Part) -> usize {
        match part {
            Part::Link(0) => 0,
            Part::Sender(i) => 1 + 2 * i,
            Part::Toggler(i) => 2 + 2 * i,
            Part::Bouncer => 2 * self.senders + 1,
            Part::Link(_) => 2 * self.senders + 2,
        }
    }

    fn links(self) -> usize {
        1 + usize::from(self.back)
    }

    /// Where the packets of a sender come from and go to on a line: with a return line to the bouncer
    /// and from it, otherwise back to the sender.
    fn ends(self, link: usize, sender: usize) -> Ends {
        let sender = self.number(Part::Sender(sender));
        let other = if self.back {
            self.number(Part::Bouncer)
        } else {
            sender
        };
        match link {
            0 => Ends {
                source: sender,
                destination: other,
            },
            _ => Ends {
                source: other,
                destination: sender,
            },
        }
    }
}

/// The typed parts of a simulation that `wiring::fill` filled with senders whose policies a `G`
/// makes.
pub struct View<'s, 'sim, 'a, G> {
    simulation: &'s Simulation<'sim, 'a>,
    parts: Parts,
    make_policy: std::marker::PhantomData<G>,
}

impl<'s, 'sim: 'a, 'a, G: Fn() -> Policy + 'a> View<'s, 'sim, 'a, G> {
    /// # Safety
    /// The simulation must be one with these parts that `wiring::fill` filled with a `G`.
    pub unsafe fn new(
        simulation: &'s Simulation<'sim, 'a>,
        parts: Parts,
        _make_policy: &G,
    ) -> Self {
        View {
            simulation,
            parts,
            make_policy: std::marker::PhantomData,
        }
    }

    fn link(&self, l: usize) -> &'s LinkPart<'sim> {
        // SAFETY: by `new`, this part is a link.
        unsafe { self.simulation.part(self.parts.number(Part::Link(l))) }
    }

    fn sender(&self, i: usize) -> &'s SenderPart<'sim, 'a, G> {
        // SAFETY: by `new`, this part is sender i.
        unsafe { self.simulation.part(self.parts.number(Part::Sender(i))) }
    }

    fn toggler(&self, i: usize) -> &'s TogglerPart<'sim> {
        // SAFETY: by `new`, this part is toggler i.
        unsafe { self.simulation.part(self.parts.number(Part::Toggler(i))) }
    }

    pub fn meter(&self, i: usize) -> &'s AverageFlowMeter {
        self.sender(i).meter()
    }

    pub fn held(&self) -> Held {
        let simulation = self.simulation;
        Held {
            clock: simulation.time().double(),
            next: simulation.next_part(),
            links: (0..self.parts.links())
                .map(|l| link(self.link(l), |sender| self.parts.ends(l, sender)))
                .collect(),
            senders: (0..self.parts.senders)
                .map(|i| sender(self.sender(i)))
                .collect(),
            togglers: (0..self.parts.senders)
                .map(|i| toggler(self.toggler(i)))
                .collect(),
            queue: (0..simulation.parts())
                .map(|part| simulation.queued(part).map(|time| time.double()))
                .collect(),
        }
    }
}

/// What a link holds. A packet's ends must be those that `ends` gives for its sender; the line does not
/// show them.
fn link(link: &LinkPart, ends: impl Fn(usize) -> Ends) -> HeldLink {
    let packet = |packet: &Packet<_>| {
        let sender = sender_of(packet);
        assert_eq!(packet.ends(), ends(sender), "a packet that goes astray");
        HeldPacket {
            sender,
            sequence: packet.sequence(),
            sent: packet.sent_time().double(),
        }
    };
    HeldLink {
        earliest: link.earliest_start().double(),
        bits: link.waiting_bits(),
        waiting: link
            .waiting()
            .map(|waiting| Waiting {
                packet: packet(waiting),
                bits: waiting.size().bits(),
            })
            .collect(),
        line: link
            .on_line()
            .map(|(on_line, due)| Transit {
                packet: packet(on_line),
                due: due.double(),
            })
            .collect(),
        words: link.words(),
    }
}

/// The number of the sender that sent it. One of a packet's ends is that sender; the other is too, or is
/// the bouncer, whose part comes after those of all senders.
pub fn sender_of<E>(packet: &Packet<'_, E>) -> usize {
    let Ends {
        source,
        destination,
    } = packet.ends();
    let part = source.min(destination);
    assert!(part % 2 == 1, "a packet of part {part}");
    part / 2
}

fn sender<G>(sender: &SenderPart<'_, '_, G>) -> Sender {
    Sender {
        sent: sender.sent(),
        enabled: sender.enabled().map(|on| Enabled {
            started: on.started.double(),
            greatest_ack: on.greatest_ack,
            window: on.window,
            timer: on.policy.timer().map(|time| time.double()),
        }),
        words: sender.words(),
        meter: meter(sender.meter()),
    }
}

fn toggler(toggler: &TogglerPart) -> HeldToggler {
    HeldToggler {
        on: toggler.on(),
        next_toggle: toggler.next_toggle().double(),
        words: toggler.words(),
    }
}

/// Without records the Rust holds no sum; the line shows 0.
pub fn meter(meter: &AverageFlowMeter) -> Meter {
    let held = meter.held();
    let (rtt_sum, records) = held
        .rtt
        .map_or((0., 0), |(sum, count)| (sum.seconds(), count));
    Meter {
        total: held.total.seconds(),
        start: held.start.map(|time| time.double()),
        bits: held.amount.bits(),
        records: records as u64,
        rtt_sum,
    }
}
