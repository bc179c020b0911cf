//! The lines that document 01's program prints.

use std::fmt;

use crate::{hex, hex_or};

/// Sender and sequence.
#[derive(Clone, Copy, Debug, PartialEq)]
pub struct Name {
    pub sender: usize,
    pub sequence: u64,
}

/// What a tick that moved did.
#[derive(Clone, Debug, PartialEq)]
pub struct Record {
    pub time: f64,
    pub part: usize,
    pub mark: char,
    pub packet: Option<Name>,
    pub started: Option<Name>,
}

/// A sender's totals, and what its meter reads; nothing where the read is refused by 16.
#[derive(Clone, Debug, PartialEq)]
pub struct Flow {
    pub sent: u64,
    pub counted: u64,
    pub rate: Option<f64>,
    pub rtt: Option<f64>,
}

/// How a run ended.
#[derive(Clone, Debug, PartialEq)]
pub struct End {
    pub number: u8,
    pub clock: f64,
    pub flows: Vec<Flow>,
}

impl fmt::Display for Name {
    fn fmt(&self, f: &mut fmt::Formatter<'_>) -> fmt::Result {
        write!(f, "{}:{}", self.sender, self.sequence)
    }
}

impl fmt::Display for Record {
    fn fmt(&self, f: &mut fmt::Formatter<'_>) -> fmt::Result {
        let name = |packet: Option<Name>| packet.map_or("-".into(), |p| p.to_string());
        write!(
            f,
            "time={} part={} mark={} packet={} line={}",
            hex(self.time),
            self.part,
            self.mark,
            name(self.packet),
            name(self.started)
        )
    }
}

impl fmt::Display for End {
    fn fmt(&self, f: &mut fmt::Formatter<'_>) -> fmt::Result {
        writeln!(f, "stop={} clock={}", self.number, hex(self.clock))?;
        for (i, flow) in self.flows.iter().enumerate() {
            writeln!(
                f,
                "flow={i} sent={} counted={} rate={} rtt={}",
                flow.sent,
                flow.counted,
                hex_or("-", flow.rate),
                hex_or("-", flow.rtt)
            )?;
        }
        Ok(())
    }
}
