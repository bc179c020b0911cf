// Beside the published packet.rs.

/// Two parts.
#[derive(Clone, Copy, Debug, PartialEq)]
pub struct Ends {
    pub source: usize,
    pub destination: usize,
}

impl<'sim, E> Packet<'sim, E> {
    /// The parts that it comes from and goes to. An address is a closure, so one asks it where a
    /// message would go.
    pub fn ends(&self) -> Ends {
        let part = |address: &PacketAddress<'sim, E>| {
            let copy = Packet {
                source: self.source.clone(),
                destination: self.destination.clone(),
                ..*self
            };
            address.create_message(copy).destination().part()
        };
        Ends {
            source: part(&self.source),
            destination: part(&self.destination),
        }
    }

    pub fn sequence(&self) -> u64 {
        self.seq
    }

    pub fn sent_time(&self) -> Time {
        self.sent_time
    }
}
