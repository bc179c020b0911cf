//! The description of a network: document 01's eleven lines with document 02's `bits` line (K1), and the
//! ranges of stops 1 to 7 and 20. A return line (K4) has no text; `script.rs` reads it.

use crate::double;

/// Bytes that the reader takes, bytes in a line, and bytes in the `bits` line.
const TEXT: usize = 4096;
const LINE: usize = 128;
const BITS_LINE: usize = 512;

const MOST_TICKS: u32 = 65_536;
const MOST_SENDERS: u32 = 16;
const MOST_WINDOW: u32 = 64;

#[derive(Clone, Copy, Debug, PartialEq)]
pub enum Distribution {
    Always(f64),
    Uniform(f64, f64),
}

#[derive(Clone, Copy, Debug, PartialEq)]
pub enum Policy {
    Held { window: u32 },
    Grown { first: u32, most: u32 },
    Timed { most: u32, gap: f64 },
}

/// The values of a line.
#[derive(Clone, Copy, Debug, PartialEq)]
pub struct Line {
    pub delay: f64,
    pub rate: f64,
    pub loss: f64,
    pub limit: Option<u64>,
}

#[derive(Clone, Debug, PartialEq)]
pub struct Description {
    pub line: Line,
    /// The return line, if there is one.
    pub back: Option<Line>,
    /// One value for all senders, or one for each.
    pub bits: Vec<u64>,
    pub senders: u32,
    pub on: Distribution,
    pub off: Distribution,
    pub policy: Policy,
    pub seed: u64,
    pub ticks: u32,
}

impl Description {
    /// Nothing where the text is malformed (stop 15).
    pub fn read(text: &[u8]) -> Option<Description> {
        if text.len() > TEXT {
            return None;
        }
        let lines = std::str::from_utf8(text).ok()?.strip_suffix('\n')?;
        let lines: Vec<&str> = lines.split('\n').collect();
        if lines.len() != 11 {
            return None;
        }
        let field = |index: usize, key: &str| {
            let most = if key == "bits" { BITS_LINE } else { LINE };
            let line = Some(lines[index]).filter(|line| line.len() <= most)?;
            line.strip_prefix(key)?.strip_prefix('=')
        };
        let senders = decimal_32(field(5, "senders")?)?;
        Some(Description {
            line: Line {
                delay: double(field(0, "delay")?)?,
                rate: double(field(1, "rate")?)?,
                loss: double(field(2, "loss")?)?,
                limit: match field(3, "limit")? {
                    "none" => None,
                    bits => Some(decimal(bits)?),
                },
            },
            back: None,
            bits: bits(field(4, "bits")?, senders)?,
            senders,
            on: distribution(field(6, "on")?)?,
            off: distribution(field(7, "off")?)?,
            policy: policy(field(8, "policy")?)?,
            seed: decimal(field(9, "seed")?)?,
            ticks: decimal_32(field(10, "ticks")?).filter(|ticks| *ticks <= MOST_TICKS)?,
        })
    }

    /// The packet bits of each sender.
    pub fn sender_bits(&self) -> impl Iterator<Item = u64> + '_ {
        let values = self.bits.iter().copied();
        values.cycle().take(self.senders as usize)
    }

    /// The first of stops 1 to 7 and 20 that holds.
    pub fn refused(&self) -> Option<u8> {
        let [delay, rate, loss, limit] = self.line.fit();
        let senders = self.senders <= MOST_SENDERS
            && self.sender_bits().all(|bits| (1..=1 << 24).contains(&bits));
        let times = self.on.fit() && self.off.fit();
        let back = self.back.is_none_or(|line| line.fit() == [true; 4]);
        let fit = [
            (1, delay),
            (2, rate),
            (3, loss),
            (4, limit),
            (5, senders),
            (6, times),
            (7, self.policy.fit()),
            (20, back),
        ];
        fit.into_iter()
            .find(|(_, fit)| !fit)
            .map(|(number, _)| number)
    }
}

impl Line {
    /// The ranges of 1 to 4.
    fn fit(self) -> [bool; 4] {
        [
            within(0., self.delay, two_to(20)),
            within(1., self.rate, two_to(50)),
            within(0., self.loss, 1.),
            self.limit.is_none_or(|limit| limit <= 1 << 50),
        ]
    }
}

impl Distribution {
    fn fit(self) -> bool {
        match self {
            Distribution::Always(value) => 0. < value && value <= two_to(20),
            Distribution::Uniform(min, max) => 0. <= min && min < max && max <= two_to(20),
        }
    }
}

impl Policy {
    fn fit(self) -> bool {
        let window = |w: u32| (1..=MOST_WINDOW).contains(&w);
        match self {
            Policy::Held { window: held } => window(held),
            Policy::Grown { first, most } => window(first) && window(most) && first <= most,
            Policy::Timed { most, gap } => window(most) && within(two_to(-20), gap, two_to(20)),
        }
    }
}

/// Both ends belong to the range, NaN to none.
pub fn within(least: f64, value: f64, most: f64) -> bool {
    least <= value && value <= most
}

pub fn two_to(power: i32) -> f64 {
    2_f64.powi(power)
}

/// One value, or as many as senders, joined by commas.
fn bits(text: &str, senders: u32) -> Option<Vec<u64>> {
    let values: Vec<u64> = text.split(',').map(decimal).collect::<Option<_>>()?;
    let count = values.len();
    (count == 1 || count == senders as usize).then_some(values)
}

fn distribution(text: &str) -> Option<Distribution> {
    if let Some(value) = text.strip_prefix("always:") {
        return double(value).map(Distribution::Always);
    }
    let (min, max) = text.strip_prefix("uniform:")?.split_once(':')?;
    Some(Distribution::Uniform(double(min)?, double(max)?))
}

fn policy(text: &str) -> Option<Policy> {
    let (name, rest) = text.split_once(':')?;
    if name == "held" {
        return Some(Policy::Held {
            window: decimal_32(rest)?,
        });
    }
    let (first, second) = rest.split_once(':')?;
    match name {
        "grown" => Some(Policy::Grown {
            first: decimal_32(first)?,
            most: decimal_32(second)?,
        }),
        "timed" => Some(Policy::Timed {
            most: decimal_32(first)?,
            gap: double(second)?,
        }),
        _ => None,
    }
}

/// Decimal digits without leading zeros, in 64 bits.
fn decimal(text: &str) -> Option<u64> {
    let digits = !text.is_empty() && text.bytes().all(|b| b.is_ascii_digit());
    let canonical = text == "0" || !text.starts_with('0');
    if digits && canonical {
        text.parse().ok()
    } else {
        None
    }
}

fn decimal_32(text: &str) -> Option<u32> {
    decimal(text)?.try_into().ok()
}
