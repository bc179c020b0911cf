//! Reads the descriptions of a list so many times over, as the port's program `loads` does (FORM.md).

use std::hint::black_box;

use text::description::{Description, Distribution, Policy};

/// Bytes of a list.
pub const LIST: u64 = 65_536;

/// Numbers that the `bits` line counts as.
const BITS: usize = 16;

/// The bytes of a letter, a space, a number and LF.
const HEAD: usize = 19;

/// What was read so far.
#[derive(Default)]
pub struct Tally {
    pub given: u64,
    pub malformed: u64,
    pub sum: u64,
}

/// All rounds over a list.
pub fn rounds(list: &[u8]) -> Tally {
    let rounds = number(list);
    let texts = texts(list);
    let mut tally = Tally::default();
    for _ in 0..rounds {
        for text in &texts {
            tally.count(Description::read(black_box(text)));
        }
    }
    tally
}

/// The texts of a list, up to the first that is cut short.
fn texts(list: &[u8]) -> Vec<&[u8]> {
    let mut texts = Vec::new();
    let mut rest = list.get(HEAD..).unwrap_or_default();
    while let Some((head, after)) = rest.split_at_checked(HEAD) {
        let Some((text, after)) = after.split_at_checked(number(head) as usize) else {
            break;
        };
        texts.push(text);
        rest = after;
    }
    texts
}

/// The number of a head. A byte that is no digit, or that is not there, counts as the digit 0.
fn number(head: &[u8]) -> u64 {
    (2..18).fold(0, |number, at| {
        let digit = match head.get(at) {
            Some(byte @ b'0'..=b'9') => byte - b'0',
            Some(byte @ b'a'..=b'f') => byte - b'a' + 10,
            _ => 0,
        };
        (number << 4) | u64::from(digit)
    })
}

impl Tally {
    fn count(&mut self, answer: Option<Description>) {
        match answer {
            Some(description) => {
                self.given = self.given.saturating_add(1);
                self.describe(&description);
            }
            None => self.malformed = self.malformed.saturating_add(1),
        }
    }

    /// A step that can be undone (xorshift64), so that no number drops out of the sum.
    fn add(&mut self, number: u64) {
        self.sum ^= number;
        self.sum ^= self.sum >> 12;
        self.sum ^= self.sum << 25;
        self.sum ^= self.sum >> 27;
    }

    fn describe(&mut self, d: &Description) {
        self.add(d.line.delay.to_bits());
        self.add(d.line.rate.to_bits());
        self.add(d.line.loss.to_bits());
        match d.line.limit {
            None => self.add(0),
            Some(bits) => {
                self.add(1);
                self.add(bits);
            }
        }
        for place in 0..BITS {
            self.add(match d.bits[..] {
                [all] => all,
                ref each => each.get(place).copied().unwrap_or(0),
            });
        }
        self.add(d.senders.into());
        self.distribution(d.on);
        self.distribution(d.off);
        self.policy(d.policy);
        self.add(d.seed);
        self.add(d.ticks.into());
    }

    fn distribution(&mut self, distribution: Distribution) {
        match distribution {
            Distribution::Always(value) => {
                self.add(0);
                self.add(value.to_bits());
            }
            Distribution::Uniform(min, max) => {
                self.add(1);
                self.add(min.to_bits());
                self.add(max.to_bits());
            }
        }
    }

    fn policy(&mut self, policy: Policy) {
        match policy {
            Policy::Held { window } => {
                self.add(0);
                self.add(window.into());
            }
            Policy::Grown { first, most } => {
                self.add(1);
                self.add(first.into());
                self.add(most.into());
            }
            Policy::Timed { most, gap } => {
                self.add(2);
                self.add(most.into());
                self.add(gap.to_bits());
            }
        }
    }
}
