//! What the run is at, on standard error, about once a second.
use std::time::{Duration, Instant};

/// How often the clock is looked at.
const LOOK: u64 = 128;

/// The progress of a run.
pub struct Progress {
    started: Instant,
    told: Instant,
    compared: u64,
    stage: String,
}

impl Progress {
    pub fn new() -> Progress {
        let now = Instant::now();
        Progress { started: now, told: now, compared: 0, stage: String::new() }
    }

    /// What comes next.
    pub fn stage(&mut self, stage: String) {
        self.stage = stage;
    }

    /// One more comparison.
    pub fn compared(&mut self, call: &str) {
        self.compared += 1;
        if self.compared % LOOK == 0 && self.told.elapsed() >= Duration::from_secs(1) {
            self.told = Instant::now();
            eprintln!("{:4} s: {}: {call}, {} compared", self.seconds(), self.stage, self.compared);
        }
    }

    /// How long it has taken so far.
    pub fn seconds(&self) -> u64 {
        self.started.elapsed().as_secs()
    }
}

impl Default for Progress {
    fn default() -> Self {
        Progress::new()
    }
}
