//! The published `Simulator::tick` so many times, with nothing of the harness between the calls, for `bench/run`
//! (FORM.md): `ticks COUNT < network`.
//!
//! Two packages are made of this source: `ticks` with the oracle's stand-ins, and `crates` with the crates of
//! a registry that the published files draw by and keep their map in. In both, the feature `vector` takes a
//! plain vector for the map, and `lean` messages that count nothing.

include!(concat!(env!("OUT_DIR"), "/root.rs"));

// The published files say `crate::` and mean their own lib.rs.
pub use flowforge::*;

#[cfg(feature = "vector")]
extern crate vector_map as vec_map;

#[cfg(not(feature = "lean"))]
#[allow(dead_code)] // no state is shown here
mod effect;
#[cfg(feature = "lean")]
#[path = "messages.rs"]
mod effect;
#[allow(dead_code)]
mod policy;
mod wiring;

use std::{
    io::{self, Read},
    process::ExitCode,
    time::Instant,
};

use generativity::{with_guard, Guard};
use text::{description::Description, script};

use crate::{
    policy::Policy,
    quantities::{packets, Time},
    simulation::SimulatorBuilder,
    util::{logging::NothingLogger, rand::Rng},
    wiring::{fill, Simulation},
};

fn main() -> ExitCode {
    match ticks() {
        Ok(line) => {
            println!("{line}");
            ExitCode::SUCCESS
        }
        Err(error) => {
            eprintln!("ticks: {error}");
            ExitCode::from(2)
        }
    }
}

fn ticks() -> io::Result<String> {
    let count = std::env::args().nth(1);
    let count = count.and_then(|word| word.parse().ok());
    let count: u32 = count.ok_or_else(|| io::Error::other("usage: ticks COUNT < network"))?;
    let description = network()?;
    Ok(with_guard(|guard| {
        let mut rng = Rng::from_seed(description.seed);
        let mut simulation = built(guard, &description, &mut rng);
        let start = Instant::now();
        let mut moved = 0;
        while moved < count && simulation.tick() {
            moved += 1;
        }
        let spent = start.elapsed().as_nanos();
        // The clock comes of every tick, so none can be left out.
        let clock = (simulation.time() - Time::SIM_START).seconds();
        format!("ticks {moved} {} {spent}", text::hex(clock))
    }))
}

/// The network on standard input, of the one packet size of the published files: a description, or a line of
/// a script, which may have a return line.
fn network() -> io::Result<Description> {
    let mut given = String::new();
    io::stdin().read_to_string(&mut given)?;
    let description = match script::read(given.trim_end()) {
        Some((_, description)) => Some(description),
        None => Description::read(given.as_bytes()),
    };
    let one = packets(1).bits();
    description
        .filter(|d| d.refused().is_none() && d.sender_bits().all(|bits| bits == one))
        .ok_or_else(|| io::Error::other("no fit network of packets of 11200 bits"))
}

/// No limit is set to the tries of a draw: the network must be one whose draws end.
fn built<'sim: 'a, 'a>(
    guard: Guard<'sim>,
    description: &Description,
    root: &'a mut Rng,
) -> Simulation<'sim, 'a> {
    let kind = description.policy;
    let builder = SimulatorBuilder::new(guard);
    fill(&builder, description, move || Policy::new(kind), root);
    builder.build(NothingLogger).expect("every slot is filled")
}
