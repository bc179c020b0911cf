// Beside the published time.rs.

impl Time {
    /// A moment with exactly these bits. `from_sim_start` adds to 0 and so loses the sign of -0.
    pub const fn from_double(seconds: f64) -> Time {
        Time(super::seconds(seconds))
    }

    pub const fn double(self) -> f64 {
        self.0.seconds()
    }
}
