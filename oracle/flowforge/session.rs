//! Builds and runs a described network with FlowForge's own code, and finds document 01's stops.
//!
//! The Rust knows none of the stops. Those that show in the held state are read from it, before
//! the tick or after it; spent draws unwind out of the tick (`rand_distr`). After a refused tick
//! the simulation is of no more use, so it is built anew and run up to that tick: this is the
//! state that the refusal leaves as it was.

use std::panic::{catch_unwind, resume_unwind, AssertUnwindSafe};

use generativity::{with_guard, Guard};
use rand_distr::{limit_tries, Spent};
use text::{
    description::{two_to, Description},
    held::{Held, Packet, Sender},
    lines::{End, Flow, Name, Record},
};

use crate::{
    effect::{arrived, Arrived},
    look::{Part, Parts, View},
    policy::Policy,
    quantities::packets,
    simulation::SimulatorBuilder,
    sizes,
    util::{logging::NothingLogger, rand::Rng},
    wiring::{amount, fill, Simulation},
};

/// Packets that may wait for a line, and packets that may be on it.
const PLACES: usize = 512;
const MOST_SENT: u64 = 1 << 24;

const NO_TURN: &str = "the bouncer has no time of its own";

/// Runs a description whose ranges are fit. `watch` is shown the built state, then for each tick
/// its record if it moved and the state after it. The error is the number of a refused build.
pub fn play(
    description: &Description,
    watch: &mut dyn FnMut(Option<&Record>, &Held),
) -> Result<End, u8> {
    let first = session(description, description.ticks, watch)?;
    if first.number == 0 {
        return Ok(first.end());
    }
    let restored = session(description, first.moved, &mut |_, _| ())?;
    assert_eq!(restored.held, first.held, "a replay that differs");
    watch(None, &restored.held);
    Ok(End {
        number: first.number,
        ..restored.end()
    })
}

/// How a session ended; after a refused tick, the state before it and no flows.
struct Ended {
    moved: u32,
    number: u8,
    held: Held,
    flows: Vec<Flow>,
}

impl Ended {
    fn end(self) -> End {
        End {
            number: self.number,
            clock: self.held.clock,
            flows: self.flows,
        }
    }
}

fn session(
    description: &Description,
    ticks: u32,
    watch: &mut dyn FnMut(Option<&Record>, &Held),
) -> Result<Ended, u8> {
    if crate::PATCHED {
        sizes::set(description.sender_bits().map(amount).collect());
    } else {
        let one = packets(1).bits();
        assert!(
            description.sender_bits().all(|bits| bits == one),
            "the published files have one packet size"
        );
    }
    with_guard(|guard| run(guard, description, ticks, watch))
}

fn run(
    guard: Guard<'_>,
    description: &Description,
    ticks: u32,
    watch: &mut dyn FnMut(Option<&Record>, &Held),
) -> Result<Ended, u8> {
    let make_policy = policies(description);
    let mut rng = Rng::from_seed(description.seed);
    let simulation = built(guard, description, make_policy, &mut rng)?;
    let mut running = Running {
        simulation,
        parts: Parts {
            senders: description.senders as usize,
            back: description.back.is_some(),
        },
        make_policy,
    };

    let mut held = running.view().held();
    watch(None, &held);
    let mut moved = 0;
    while moved < ticks {
        match running.tick(&held) {
            Tick::Moved(record, after) => {
                watch(Some(&record), &after);
                held = after;
                moved += 1;
            }
            Tick::Idle => {
                watch(None, &held);
                break;
            }
            Tick::Refused(number) => {
                return Ok(Ended {
                    moved,
                    number,
                    held,
                    flows: vec![],
                });
            }
        }
    }
    let flows = running.flows(&held);
    Ok(Ended {
        moved,
        number: 0,
        held,
        flows,
    })
}

fn policies(description: &Description) -> impl Fn() -> Policy + Copy {
    let kind = description.policy;
    move || Policy::new(kind)
}

fn built<'sim: 'a, 'a>(
    guard: Guard<'sim>,
    description: &Description,
    make_policy: impl Fn() -> Policy + Clone + 'a,
    root: &'a mut Rng,
) -> Result<Simulation<'sim, 'a>, u8> {
    let builder = SimulatorBuilder::new(guard);
    let filled = unless_spent(|| fill(&builder, description, make_policy, root));
    filled.map_err(|Stopped(number)| number)?;
    Ok(builder.build(NothingLogger).expect("every slot is filled"))
}

/// A simulation with these parts that `fill` filled, with policies made by `make_policy`.
struct Running<'sim, 'a, G> {
    simulation: Simulation<'sim, 'a>,
    parts: Parts,
    make_policy: G,
}

enum Tick {
    Moved(Record, Held),
    Idle,
    Refused(u8),
}

impl<'sim: 'a, 'a, G: Fn() -> Policy + 'a> Running<'sim, 'a, G> {
    fn view(&self) -> View<'_, 'sim, 'a, G> {
        // SAFETY: `fill` filled this simulation with these parts and a `G`.
        unsafe { View::new(&self.simulation, self.parts, &self.make_policy) }
    }

    /// One tick; `before` is the state that it begins at.
    fn tick(&mut self, before: &Held) -> Tick {
        let Some(number) = before.next else {
            let moved = self.simulation.tick();
            assert!(!moved, "an idle simulation moved");
            return Tick::Idle;
        };
        let part = self.parts.of(number);
        if let Some(number) = refused_before(before, part) {
            return Tick::Refused(number);
        }
        arrived();
        let ticked = match part {
            Part::Toggler(_) => unless_spent(|| self.simulation.tick()),
            // A link's sample is no positive draw: 0 is one of its values.
            Part::Link(_) | Part::Sender(_) => Ok(self.simulation.tick()),
            Part::Bouncer => unreachable!("{NO_TURN}"),
        };
        match ticked {
            Ok(moved) => assert!(moved, "a simulation with a next part did not move"),
            Err(Stopped(number)) => return Tick::Refused(number),
        }
        let after = self.view().held();
        if let Some(number) = refused_after(before, &after, part) {
            return Tick::Refused(number);
        }
        let done = done(before, &after, part, arrived());
        let record = Record {
            time: before.clock,
            part: number,
            mark: done.mark,
            packet: done.packet,
            started: done.started,
        };
        Tick::Moved(record, after)
    }

    /// Each meter read at the clock.
    fn flows(&self, held: &Held) -> Vec<Flow> {
        let view = self.view();
        let read = |(i, sender): (usize, &Sender)| {
            let properties = view
                .meter(i)
                .average_properties(self.simulation.time())
                .ok();
            Flow {
                sent: sender.sent,
                counted: sender.meter.records,
                rate: properties
                    .as_ref()
                    .map(|flow| flow.throughput.bits_per_second()),
                rtt: properties
                    .and_then(|flow| flow.rtt.ok())
                    .map(|rtt| rtt.seconds()),
            }
        };
        held.senders.iter().enumerate().map(read).collect()
    }
}

/// A stop's number.
struct Stopped(u8);

/// Stop 8, if the draws of `work` are spent. Any other panic goes on: it is a fault.
fn unless_spent<T>(work: impl FnOnce() -> T) -> Result<T, Stopped> {
    catch_unwind(AssertUnwindSafe(|| limit_tries(work))).map_err(|payload| {
        if payload.is::<Spent>() {
            Stopped(8)
        } else {
            resume_unwind(payload)
        }
    })
}

/// Stops that show before the tick: 10 and 11.
fn refused_before(before: &Held, part: Part) -> Option<u8> {
    if before.clock > two_to(40) {
        return Some(10);
    }
    if let Part::Sender(i) = part {
        let timer = before.senders[i].enabled.as_ref().and_then(|on| on.timer);
        let sends = timer != Some(before.clock);
        if sends && before.senders[i].sent >= MOST_SENT {
            return Some(11);
        }
    }
    None
}

/// Stops that show in what the tick did: the Rust takes a 513th packet. A link's start comes before
/// what its message does on the second line, and so 13 before 12. A new time that is below the clock or
/// not finite has no number (document 02, K6: there is none), so the harness ends.
fn refused_after(before: &Held, after: &Held, part: Part) -> Option<u8> {
    let fine = |time: f64| assert!(before.clock <= time && time.is_finite(), "{part:?}: {time}");
    match part {
        Part::Link(l) => {
            let (was, is) = (&before.links[l], &after.links[l]);
            if is.waiting.len() < was.waiting.len() {
                fine(is.earliest);
                let due = is.line.last().map(|last| last.due);
                due.into_iter().for_each(fine);
            }
            if is.line.len() > PLACES {
                return Some(13);
            }
        }
        Part::Sender(i) => {
            let timer = after.senders[i].enabled.as_ref().and_then(|on| on.timer);
            timer.into_iter().for_each(fine);
        }
        Part::Toggler(i) => fine(after.togglers[i].next_toggle),
        Part::Bouncer => unreachable!("{NO_TURN}"),
    }
    let full = after.links.iter().any(|link| link.waiting.len() > PLACES);
    full.then_some(12)
}

/// What a tick did, beside its time and part.
struct Done {
    mark: char,
    packet: Option<Name>,
    started: Option<Name>,
}

impl Done {
    fn marked(mark: char, packet: Option<Name>) -> Done {
        Done {
            mark,
            packet,
            started: None,
        }
    }
}

/// What the tick did, as the states around it and the messages show.
fn done(before: &Held, after: &Held, part: Part, arrived: Arrived) -> Done {
    match part {
        Part::Link(l) => {
            let (was, is) = (&before.links[l], &after.links[l]);
            let started =
                (is.waiting.len() < was.waiting.len()).then(|| name(&was.waiting[0].packet));
            let left = is.line.len() < was.line.len() + usize::from(started.is_some());
            let packet = left.then(|| &was.line[0].packet);
            Done {
                mark: packet.map_or('-', |packet| left_mark(before, after, l, packet, arrived)),
                packet: packet.map(name),
                started,
            }
        }
        Part::Sender(i) => {
            let sequence = after.senders[i].sent;
            if sequence == before.senders[i].sent {
                Done::marked('T', None)
            } else {
                let mark = if admitted(before, after, 0) { 'S' } else { 'F' };
                let sent = Name {
                    sender: i,
                    sequence,
                };
                Done::marked(mark, Some(sent))
            }
        }
        Part::Toggler(i) => {
            let on = after.senders[i].enabled.is_some();
            Done::marked(if on { 'E' } else { 'D' }, None)
        }
        Part::Bouncer => unreachable!("{NO_TURN}"),
    }
}

fn name(packet: &Packet) -> Name {
    Name {
        sender: packet.sender,
        sequence: packet.sequence,
    }
}

/// One packet more waits for a line.
fn admitted(before: &Held, after: &Held, l: usize) -> bool {
    after.links[l].waiting.len() > before.links[l].waiting.len()
}

/// The mark of a packet that left line l: it reached a sender; or the bouncer, and through it the second
/// link; or nobody.
fn left_mark(before: &Held, after: &Held, l: usize, packet: &Packet, arrived: Arrived) -> char {
    let (was, is) = (
        &before.senders[packet.sender],
        &after.senders[packet.sender],
    );
    match (arrived.at_senders, arrived.on_the_way) {
        (0, 0) => ['L', 'N'][l],
        (0, 2) => {
            if admitted(before, after, 1) {
                'P'
            } else {
                'Q'
            }
        }
        (1, 0) => {
            if is.meter.records > was.meter.records {
                'C'
            } else if was.enabled.is_some() {
                'O'
            } else {
                'I'
            }
        }
        _ => panic!("a tick of link {l} in which packets arrived: {arrived:?}"),
    }
}
