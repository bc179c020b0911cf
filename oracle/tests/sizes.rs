//! Packet bits of each sender (document 02, K1), which only the patched copy has.

use text::{
    description::{Description, Distribution, Line, Policy},
    held::Held,
    lines::{End, Record},
};

type Play = fn(&Description, &mut dyn FnMut(Option<&Record>, &Held)) -> Result<End, u8>;

fn three(bits: Vec<u64>, rate: f64) -> Description {
    Description {
        line: Line {
            delay: 0.375,
            rate,
            loss: 0.0625,
            limit: Some(10 * bits[0]),
        },
        back: None,
        bits,
        senders: 3,
        on: Distribution::Uniform(5., 9.),
        off: Distribution::Uniform(0., 1.),
        policy: Policy::Grown { first: 1, most: 6 },
        seed: 3,
        ticks: 2000,
    }
}

/// The lines of a run: each record, each state, the end.
fn lines(play: Play, bits: Vec<u64>, rate: f64) -> Vec<String> {
    let mut lines = vec![];
    let end = play(&three(bits, rate), &mut |record, held| {
        lines.extend(record.map(Record::to_string));
        lines.push(held.line());
    });
    lines.push(end.unwrap().to_string());
    lines
}

#[test]
fn one_size() {
    let published = lines(published::session::play, vec![11_200], 89_600.);
    for bits in [vec![11_200], vec![11_200; 3]] {
        assert!(lines(published::session::play, bits.clone(), 89_600.) == published);
        assert!(lines(patched::session::play, bits, 89_600.) == published);
    }
    let eight = lines(patched::session::play, vec![8], 64.);
    assert!(lines(patched::session::play, vec![8; 3], 64.) == eight);
}

#[test]
fn each_its_own() {
    let (bits, rate) = (vec![8, 4, 6], 64.);
    let mut started = [0; 3];
    let end = patched::session::play(&three(bits.clone(), rate), &mut |record, held| {
        let link = &held.links[0];
        let carried = link.waiting.iter().map(|waiting| waiting.bits);
        assert_eq!(link.bits, carried.sum());
        for waiting in &link.waiting {
            assert_eq!(waiting.bits, bits[waiting.packet.sender]);
        }
        for (sender, bits) in held.senders.iter().zip(&bits) {
            assert_eq!(sender.meter.bits, sender.meter.records * bits);
        }
        if let Some((record, name)) = record.and_then(|record| Some((record, record.started?))) {
            assert_eq!(link.earliest, record.time + bits[name.sender] as f64 / rate);
            started[name.sender] += 1;
        }
    });
    assert_eq!(end.unwrap().number, 0);
    assert!(started.iter().all(|count| *count > 100), "{started:?}");
}

#[test]
#[should_panic(expected = "one packet size")]
fn not_in_the_published_files() {
    lines(
        published::session::play,
        vec![11_200, 5_600, 11_200],
        89_600.,
    );
}
