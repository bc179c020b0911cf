//! Answers a script of meter calls and flow lists (FORM.md) with the published `AverageFlowMeter`
//! and the published mean of `FlowProperties`. The refusals 16, 17 and 18 are document 01's.

use std::fmt::{self, Write};

use text::{
    description::{two_to, within},
    double, hex, hex_or, whole_hex,
};

use crate::{
    flow::{FlowProperties, NoPacketsAcked},
    quantities::{bits_per_second, bytes, seconds, Time},
    util::{
        average::IterAverage,
        meters::{AverageFlowMeter, FlowMeter, HeldMeter},
    },
};

const ABSENT: &str = "----------------";
const MOST_RECORDS: u64 = 1 << 24;
const MOST_BITS: u64 = 1 << 24;
const MOST_FLOWS: usize = 65_536;

/// A line of the script that can't be read.
#[derive(Debug)]
pub struct Unreadable(pub String);

/// The answers to a script.
pub fn answer(script: &str) -> Result<String, Unreadable> {
    let mut state = State {
        meter: Meter::new(),
        flows: Vec::new(),
    };
    let mut answers = String::new();
    for line in script.lines().filter(|line| !line.starts_with('#')) {
        let line_answer = state.obey(line).ok_or_else(|| Unreadable(line.into()))?;
        answers.push_str(&line_answer);
    }
    Ok(answers)
}

struct State {
    meter: Meter,
    flows: Vec<FlowProperties>,
}

impl State {
    /// Obeys one command: its answer with its line end, or nothing where it has none.
    fn obey(&mut self, line: &str) -> Option<String> {
        let words: Vec<&str> = line.split(' ').collect();
        let mut answer = String::new();
        match words[..] {
            ["N"] => self.meter = Meter::new(),
            ["H", total, start, bits, records, rtt_sum] => {
                self.meter = Meter::by_hand(
                    double(total)?,
                    optional(start)?,
                    whole_hex(bits)?,
                    whole_hex(records)?,
                    double(rtt_sum)?,
                );
            }
            ["E", time] => {
                let number = self.meter.enable(double(time)?);
                writeln!(answer, "E {number} {}", self.meter).unwrap();
            }
            ["D", time] => {
                let number = self.meter.disable(double(time)?);
                writeln!(answer, "D {number} {}", self.meter).unwrap();
            }
            ["R", bits, rtt, time] => {
                let number = self
                    .meter
                    .record(whole_hex(bits)?, double(rtt)?, double(time)?);
                writeln!(answer, "R {number} {}", self.meter).unwrap();
            }
            ["Q", time] => answer = read_line("Q", self.meter.read(double(time)?)),
            ["F", rate, rtt] => self.flows.push(flow(rate, rtt)?),
            ["G", rate, rtt, count] => {
                for _ in 0..whole_hex(count)? {
                    self.flows.push(flow(rate, rtt)?);
                }
            }
            ["M"] => answer = read_line("M", mean(std::mem::take(&mut self.flows))),
            _ => return None,
        }
        Some(answer)
    }
}

fn read_line(command: &str, read: Result<FlowProperties, u8>) -> String {
    match read {
        Ok(flow) => format!(
            "{command} 0 {} {}\n",
            hex(flow.throughput.bits_per_second()),
            hex_or(ABSENT, flow.rtt.ok().map(|rtt| rtt.seconds()))
        ),
        Err(number) => format!("{command} {number}\n"),
    }
}

fn flow(rate: &str, rtt: &str) -> Option<FlowProperties> {
    Some(FlowProperties {
        throughput: bits_per_second(double(rate)?),
        rtt: optional(rtt)?.map(seconds).ok_or(NoPacketsAcked),
    })
}

/// A double, or its absence.
fn optional(text: &str) -> Option<Option<f64>> {
    if text == ABSENT {
        Some(None)
    } else {
        double(text).map(Some)
    }
}

fn mean(flows: Vec<FlowProperties>) -> Result<FlowProperties, u8> {
    let fit = |value: f64| within(0., value, two_to(60));
    let members_fit = flows.iter().all(|flow| {
        fit(flow.throughput.bits_per_second())
            && flow.rtt.as_ref().map_or(true, |rtt| fit(rtt.seconds()))
    });
    if flows.is_empty() || flows.len() > MOST_FLOWS || !members_fit {
        return Err(17);
    }
    Ok(flows.average().expect("a list with a member has a mean"))
}

/// The published meter, and what it can't hold: a sum without records, which document 01's meter
/// has and the Rust's has not. It is shown until the first record.
struct Meter {
    published: AverageFlowMeter,
    sum_without_records: f64,
}

impl Meter {
    fn new() -> Meter {
        Meter {
            published: AverageFlowMeter::new_disabled(),
            sum_without_records: 0.,
        }
    }

    fn by_hand(total: f64, start: Option<f64>, bits: u64, records: u64, rtt_sum: f64) -> Meter {
        let published = AverageFlowMeter::from_held(HeldMeter {
            total: seconds(total),
            start: start.map(Time::from_double),
            amount: bytes(bits),
            rtt: (records > 0).then(|| (seconds(rtt_sum), records as usize)),
        });
        Meter {
            published,
            sum_without_records: rtt_sum,
        }
    }

    fn enable(&mut self, time: f64) -> u8 {
        if self.start().is_some() || !self.takes(time) {
            return 18;
        }
        self.published.set_enabled(Time::from_double(time));
        0
    }

    fn disable(&mut self, time: f64) -> u8 {
        let Some(start) = self.start() else { return 18 };
        if !self.takes(time) {
            return 18;
        }
        if Time::from_double(time) < Time::from_double(start) {
            self.disable_at_minus_zero(time, start);
        } else {
            self.published.set_disabled(Time::from_double(time));
        }
        0
    }

    /// Started at 0 and switched off at -0: equal as doubles, and the Rust's order panics. Its own
    /// sum is done here.
    fn disable_at_minus_zero(&mut self, time: f64, start: f64) {
        let held = self.published.held();
        self.published = AverageFlowMeter::from_held(HeldMeter {
            total: held.total + seconds(time - start),
            start: None,
            ..held
        });
    }

    fn record(&mut self, bits: u64, rtt: f64, time: f64) -> u8 {
        let fit = (1..=MOST_BITS).contains(&bits)
            && within(0., rtt, two_to(41))
            && self.records() < MOST_RECORDS
            && self.takes(time);
        if !fit {
            return 18;
        }
        self.published
            .packet_received(bytes(bits), seconds(rtt), Time::from_double(time));
        0
    }

    fn read(&self, time: f64) -> Result<FlowProperties, u8> {
        let held = self.published.held();
        let running = held.start.map_or(0., |start| time - start.double());
        if held.total.seconds() + running == 0. {
            return Err(16);
        }
        if !self.takes(time) {
            return Err(18);
        }
        let read = self.published.average_properties(Time::from_double(time));
        Ok(read.expect("an enabled time other than 0"))
    }

    /// A meter that is fit, and a time that is in range and not before the start.
    fn takes(&self, time: f64) -> bool {
        self.fit() && in_time(time) && self.start().is_none_or(|start| start <= time)
    }

    fn fit(&self) -> bool {
        let held = self.published.held();
        let (total, records) = (held.total.seconds(), self.records());
        records <= MOST_RECORDS
            && held.amount.bits() <= MOST_BITS * records
            && self.start().is_none_or(in_time)
            && total >= 0.
            && total.is_finite()
            && within(0., self.rtt_sum(), records as f64 * two_to(41))
    }

    fn start(&self) -> Option<f64> {
        self.published.held().start.map(Time::double)
    }

    fn records(&self) -> u64 {
        self.published
            .held()
            .rtt
            .map_or(0, |(_, count)| count as u64)
    }

    fn rtt_sum(&self) -> f64 {
        self.published
            .held()
            .rtt
            .map_or(self.sum_without_records, |(sum, _)| sum.seconds())
    }
}

fn in_time(time: f64) -> bool {
    within(0., time, two_to(41))
}

impl fmt::Display for Meter {
    fn fmt(&self, f: &mut fmt::Formatter<'_>) -> fmt::Result {
        let held = self.published.held();
        write!(
            f,
            "{} {} {:016x} {:016x} {}",
            hex(held.total.seconds()),
            hex_or(ABSENT, self.start()),
            held.amount.bits(),
            self.records(),
            hex(self.rtt_sum())
        )
    }
}
