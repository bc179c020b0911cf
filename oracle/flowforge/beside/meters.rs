// Beside the published meters.rs.

/// What an `AverageFlowMeter` holds: total enabled time, start, amount, and the sum and count of
/// its round-trip times, if any.
#[derive(Clone, Copy)]
pub struct HeldMeter {
    pub total: TimeSpan,
    pub start: Option<Time>,
    pub amount: Information,
    pub rtt: Option<(TimeSpan, usize)>,
}

impl AverageFlowMeter {
    pub fn held(&self) -> HeldMeter {
        let timer = &self.average_throughput.timer;
        HeldMeter {
            total: timer.total_time,
            start: timer.current_start,
            amount: self.average_throughput.total,
            rtt: self.average_rtt.aggregator,
        }
    }

    /// A meter made by hand.
    pub fn from_held(held: HeldMeter) -> AverageFlowMeter {
        AverageFlowMeter {
            average_throughput: InfoRateMeter {
                timer: Timer {
                    total_time: held.total,
                    current_start: held.start,
                },
                total: held.amount,
            },
            average_rtt: Mean {
                aggregator: held.rtt,
            },
        }
    }
}
