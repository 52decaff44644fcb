//! How many marks of a comparison differ from those by the older moving rule, so that a run in which the home gate hardly shows is no success.

/// The sheets that the home gate turns to 32: those that passed by the older rule, and those that got another number.
#[derive(Debug, Default)]
pub struct GateTally {
    passed: usize,
    failed: usize,
}

impl GateTally {
    /// One sheet more.
    pub fn add(&mut self, older: u32, now: u32) {
        self.passed += (older == 0 && now == 32) as usize;
        self.failed += (older != 0 && older != 32 && now == 32) as usize;
    }

    pub fn fair(&self) -> bool {
        1_000 <= self.passed && 1_000 <= self.failed
    }
}
