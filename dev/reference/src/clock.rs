//! Seconds of each phase on standard error, if RECON_TIMING is 1.

use std::time::Instant;

pub struct Clock {
    on: bool,
    last: Instant,
    start: Instant,
}

impl Clock {
    pub fn new() -> Clock {
        let now = Instant::now();
        Clock { on: std::env::var("RECON_TIMING").as_deref() == Ok("1"), last: now, start: now }
    }

    /// Ends a phase.
    pub fn mark(&mut self, phase: &str) {
        let now = Instant::now();
        if self.on {
            eprintln!("{phase:<12} {:8.3} s", (now - self.last).as_secs_f64());
        }
        self.last = now;
    }

    pub fn note(&self, text: String) {
        if self.on {
            eprintln!("  {text}");
        }
    }

    pub fn end(&self) {
        if self.on {
            eprintln!("{:<12} {:8.3} s", "total", self.start.elapsed().as_secs_f64());
        }
    }
}
