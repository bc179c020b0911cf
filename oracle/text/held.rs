//! The whole held state of a simulation, and its line (FORM.md).

use crate::{hex, hex_or};

pub type Words = [u64; 4];

#[derive(Clone, Debug, PartialEq)]
pub struct Packet {
    pub sender: usize,
    pub sequence: u64,
    pub sent: f64,
}

/// A packet that waits, and the bits that it carries.
#[derive(Clone, Debug, PartialEq)]
pub struct Waiting {
    pub packet: Packet,
    pub bits: u64,
}

/// A packet on the line, and when it is due.
#[derive(Clone, Debug, PartialEq)]
pub struct Transit {
    pub packet: Packet,
    pub due: f64,
}

/// What a sender holds only while it is on.
#[derive(Clone, Debug, PartialEq)]
pub struct Enabled {
    pub started: f64,
    pub greatest_ack: u64,
    pub window: u32,
    pub timer: Option<f64>,
}

#[derive(Clone, Debug, PartialEq)]
pub struct Meter {
    pub total: f64,
    pub start: Option<f64>,
    pub bits: u64,
    pub records: u64,
    pub rtt_sum: f64,
}

#[derive(Clone, Debug, PartialEq)]
pub struct Sender {
    pub sent: u64,
    pub enabled: Option<Enabled>,
    pub words: Words,
    pub meter: Meter,
}

#[derive(Clone, Debug, PartialEq)]
pub struct Toggler {
    pub on: bool,
    pub next_toggle: f64,
    pub words: Words,
}

#[derive(Clone, Debug, PartialEq)]
pub struct Link {
    pub earliest: f64,
    pub bits: u64,
    pub waiting: Vec<Waiting>,
    pub line: Vec<Transit>,
    pub words: Words,
}

#[derive(Clone, Debug, PartialEq)]
pub struct Held {
    pub clock: f64,
    pub next: Option<usize>,
    /// The link, and where there is a return line the second one.
    pub links: Vec<Link>,
    pub senders: Vec<Sender>,
    pub togglers: Vec<Toggler>,
    pub queue: Vec<Option<f64>>,
}

impl Held {
    /// The state line, without its line end.
    pub fn line(&self) -> String {
        let mut fields = vec![
            "state".to_string(),
            format!("clock={}", hex(self.clock)),
            format!(
                "next={}",
                self.next.map_or("-".into(), |part| part.to_string())
            ),
        ];
        for (l, link) in self.links.iter().enumerate() {
            if l == 1 {
                fields.push("return".to_string());
            }
            fields.push(format!("earliest={}", hex(link.earliest)));
            fields.push(format!("bits={}", link.bits));
            fields.push(format!("waiting={}", list(&link.waiting, waiting)));
            fields.push(format!("line={}", list(&link.line, transit)));
            fields.push(format!("link={}", words(&link.words)));
        }
        for (i, (sender, toggler)) in self.senders.iter().zip(&self.togglers).enumerate() {
            fields.push(format!(
                "sender={i}:{}:{}:{}",
                sender.sent,
                sender.enabled.as_ref().map_or("off".into(), enabled),
                words(&sender.words)
            ));
            fields.push(format!(
                "toggler={i}:{}:{}:{}",
                if toggler.on { "on" } else { "off" },
                hex(toggler.next_toggle),
                words(&toggler.words)
            ));
            let meter = &sender.meter;
            fields.push(format!(
                "meter={i}:{}:{}:{}:{}:{}",
                hex(meter.total),
                hex_or("-", meter.start),
                meter.bits,
                meter.records,
                hex(meter.rtt_sum)
            ));
        }
        fields.push(format!(
            "queue={}",
            list(&self.queue, |time| hex_or("-", *time))
        ));
        fields.join(" ")
    }
}

fn packet(packet: &Packet) -> String {
    format!("{}:{}:{}", packet.sender, packet.sequence, hex(packet.sent))
}

fn waiting(waiting: &Waiting) -> String {
    format!("{}:{}", packet(&waiting.packet), waiting.bits)
}

fn transit(transit: &Transit) -> String {
    format!("{}:{}", packet(&transit.packet), hex(transit.due))
}

fn enabled(on: &Enabled) -> String {
    format!(
        "{}:{}:{}:{}",
        hex(on.started),
        on.greatest_ack,
        on.window,
        hex_or("-", on.timer)
    )
}

fn words(words: &Words) -> String {
    words.map(|word| word.to_string()).join(":")
}

/// Items with commas between them, `-` for none.
fn list<T>(items: &[T], show: impl Fn(&T) -> String) -> String {
    if items.is_empty() {
        return "-".into();
    }
    items.iter().map(show).collect::<Vec<_>>().join(",")
}
