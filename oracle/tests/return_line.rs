//! Networks with a return line (document 02, K4): the published parts as `wiring.rs` puts them together.

use text::{
    description::{Description, Distribution, Line, Policy},
    held::Held,
    lines::{End, Record},
};

type Play = fn(&Description, &mut dyn FnMut(Option<&Record>, &Held)) -> Result<End, u8>;

const SEED: u64 = 3;

fn three(bits: Vec<u64>) -> Description {
    let most = *bits.iter().max().unwrap();
    let line = |delay, packets: f64, loss, limit| Line {
        delay,
        rate: packets * most as f64,
        loss,
        limit: Some(limit * most),
    };
    Description {
        line: line(0.375, 8., 0.0625, 10),
        back: Some(line(0.25, 6., 0.125, 4)),
        bits,
        senders: 3,
        on: Distribution::Uniform(5., 9.),
        off: Distribution::Uniform(0., 1.),
        policy: Policy::Grown { first: 1, most: 9 },
        seed: SEED,
        ticks: 6000,
    }
}

fn lines(play: Play, description: &Description) -> Vec<String> {
    let mut lines = vec![];
    let end = play(description, &mut |record, held| {
        lines.extend(record.map(Record::to_string));
        lines.push(held.line());
    });
    lines.push(end.unwrap().to_string());
    lines
}

#[test]
fn published_and_patched() {
    let description = three(vec![11_200]);
    let published = lines(published::session::play, &description);
    assert!(lines(patched::session::play, &description) == published);
}

/// Each sender's packets: the marks of those that left, and those held on both lines.
#[test]
fn account() {
    let mut marks = [const { vec![] }; 3];
    let description = three(vec![8, 4, 6]);
    let end = patched::session::play(&description, &mut |record, held| {
        if let Some((name, mark)) = record.and_then(|record| Some((record.packet?, record.mark))) {
            marks[name.sender].push(mark);
        }
        for (i, sender) in held.senders.iter().enumerate() {
            let waiting = held.links.iter().flat_map(|link| &link.waiting);
            let on_line = held.links.iter().flat_map(|link| &link.line);
            let packets = waiting.map(|w| &w.packet).chain(on_line.map(|t| &t.packet));
            let held = packets.filter(|packet| packet.sender == i).count();
            let left = marks[i].iter().filter(|mark| "FLQNCOI".contains(**mark));
            assert_eq!(sender.sent as usize, left.count() + held);
        }
    });
    assert_eq!(end.unwrap().number, 0);
    for mark in "SFLPQNCOI".chars() {
        assert!(marks.iter().any(|of| of.contains(&mark)), "{mark}");
    }
}

/// The second link's generator is the root's last child.
#[test]
fn generators() {
    let mut root = published::util::rand::Rng::from_seed(SEED);
    let children: Vec<_> = (0..8).map(|_| root.create_child().words()).collect();
    let mut built = None;
    let description = three(vec![11_200]);
    published::session::play(&description, &mut |_, held| {
        built.get_or_insert_with(|| held.clone());
    })
    .unwrap();
    let links = built.unwrap().links;
    assert_eq!(links[0].words, children[0]);
    assert_eq!(links[1].words, children[7]);
}

#[test]
fn ranges() {
    let mut description = three(vec![8]);
    assert_eq!(description.refused(), None);
    description.back.as_mut().unwrap().loss = f64::NAN;
    assert_eq!(description.refused(), Some(20));
    description.policy = Policy::Held { window: 0 };
    assert_eq!(description.refused(), Some(7));
}
