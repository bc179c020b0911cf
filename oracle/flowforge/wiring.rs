//! The network of a description, filled into a simulation: by the published `populate_sim`, or, with a
//! return line, by the published parts in the order of document 02's K4.

use text::description::{Description, Distribution, Line};

use crate::{
    components::{
        bouncer::LossyBouncer, link::Link, senders::lossy::LossySender, toggler::Toggler,
    },
    effect::{Effect, Effects},
    networks::remy::RemyNetwork,
    policy::Policy,
    quantities::{bits_per_second, bytes, packets, seconds, Information, TimeSpan},
    simulation::{Simulator, SimulatorBuilder},
    util::{
        logging::NothingLogger,
        meters::AverageFlowMeter,
        rand::{ContinuousDistribution, PositiveContinuousDistribution, Rng},
    },
    Network,
};

pub type Simulation<'sim, 'a> = Simulator<'sim, 'a, Effect<'sim>, NothingLogger>;

pub type LinkPart<'sim> = Link<'sim, Effect<'sim>, NothingLogger>;
pub type BouncerPart<'sim> = LossyBouncer<'sim, Effect<'sim>, NothingLogger>;
pub type SenderPart<'sim, 'a, G> =
    LossySender<'sim, 'a, Policy, AverageFlowMeter, G, Effect<'sim>, NothingLogger>;
pub type TogglerPart<'sim> = Toggler<'sim, Effect<'sim>>;

/// Each sender's policies are made by a copy of `make_policy`; its meter is an `AverageFlowMeter`.
pub fn fill<'sim: 'a, 'a, G: Fn() -> Policy + Clone + 'a>(
    builder: &SimulatorBuilder<'sim, 'a, Effect<'sim>>,
    description: &Description,
    make_policy: G,
    root: &'a mut Rng,
) {
    match &description.back {
        None => Network::<Effects>::populate_sim(
            &network(description),
            builder,
            make_policy,
            root,
            AverageFlowMeter::new_disabled,
        ),
        Some(back) => fill_with_return(builder, description, back, make_policy, root),
    }
}

/// The parts: the link, sender and toggler of each number, the bouncer, the second link; their generators
/// in this order, of which the bouncer has none. What `populate_sim` also inserts is made as there, but
/// that a sender's packets go to the bouncer. The bouncer's link is the second.
fn fill_with_return<'sim: 'a, 'a, G: Fn() -> Policy + Clone + 'a>(
    builder: &SimulatorBuilder<'sim, 'a, Effect<'sim>>,
    description: &Description,
    back: &Line,
    make_policy: G,
    root: &mut Rng,
) {
    // The places first: a sender is told of the bouncer, and the bouncer of the second link.
    let first = builder.reserve_slot::<LinkPart<'sim>>();
    let pairs: Vec<_> = (0..description.senders)
        .map(|_| {
            let sender = builder.reserve_slot::<SenderPart<'sim, 'a, G>>();
            (sender, builder.reserve_slot::<TogglerPart<'sim>>())
        })
        .collect();
    let bouncer = builder.reserve_slot::<BouncerPart<'sim>>();
    let second = builder.reserve_slot::<LinkPart<'sim>>();

    let bouncer_address = bouncer.address();
    let first_address = first.fill(link(&description.line, root.create_child()));
    for (sender, toggler) in pairs {
        let address = sender.address();
        sender.fill(LossySender::new(
            address.clone().cast(),
            first_address.clone(),
            bouncer_address.clone(),
            AverageFlowMeter::new_disabled(),
            make_policy.clone(),
            true,
            root.create_child(),
            NothingLogger,
        ));
        toggler.fill(Toggler::new(
            address.cast(),
            distribution(description.on),
            distribution(description.off),
            root.create_child(),
        ));
    }
    bouncer.fill(LossyBouncer::new(second.address(), NothingLogger));
    second.fill(link(back, root.create_child()));
}

fn link<'sim>(line: &Line, rng: Rng) -> LinkPart<'sim> {
    Link::create(
        seconds(line.delay),
        bits_per_second(line.rate),
        line.loss,
        line.limit.map(amount),
        rng,
        NothingLogger,
    )
}

fn network(description: &Description) -> RemyNetwork {
    let line = &description.line;
    RemyNetwork {
        rtt: seconds(line.delay),
        packet_rate: bits_per_second(line.rate),
        loss_rate: line.loss,
        buffer_size: line.limit.map(amount),
        num_senders: description.senders,
        off_time: distribution(description.off),
        on_time: distribution(description.on),
    }
}

fn distribution(distribution: Distribution) -> PositiveContinuousDistribution<TimeSpan> {
    PositiveContinuousDistribution(match distribution {
        Distribution::Always(value) => ContinuousDistribution::Always {
            value: seconds(value),
        },
        Distribution::Uniform(min, max) => ContinuousDistribution::Uniform {
            min: seconds(min),
            max: seconds(max),
        },
    })
}

/// An amount of so many bits. The published amount counts bytes, and rounding a limit down to
/// bytes changes no admission: what is compared with it is whole packets of 1,400 bytes.
pub fn amount(bits: u64) -> Information {
    let one = packets(1);
    bytes(bits / (one.bits() / one.bytes()))
}
