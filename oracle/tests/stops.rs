//! The two stops that no description text can reach, since a text has at most 65,536 ticks.

use text::description::{two_to, Description, Distribution, Line, Policy};

/// One sender whose packets the line always drops.
fn dropped(seconds: f64, window: u32, ticks: u32) -> Description {
    Description {
        line: Line {
            delay: 0.,
            rate: 1.,
            loss: 0.,
            limit: Some(0),
        },
        back: None,
        bits: vec![11_200],
        senders: 1,
        on: Distribution::Always(seconds),
        off: Distribution::Always(seconds),
        policy: Policy::Held { window },
        seed: 1,
        ticks,
    }
}

#[test]
fn clock_above_two_to_the_forty() {
    let description = dropped(two_to(20), 1, 2_000_000);
    let mut ticks = 0;
    let end = published::session::play(&description, &mut |record, _| {
        ticks += u32::from(record.is_some())
    });
    let end = end.unwrap();
    assert_eq!((ticks, end.number), (1_572_864, 10));
    assert_eq!(end.clock, two_to(40) + two_to(20));
}

/// Some twenty million ticks, twice: `cargo test --release -- --ignored`.
#[test]
#[ignore]
fn two_to_the_twenty_four_sent() {
    let description = dropped(1., 64, u32::MAX);
    let end = published::session::play(&description, &mut |_, _| ()).unwrap();
    assert_eq!((end.number, end.flows[0].sent), (11, 1 << 24));
}
