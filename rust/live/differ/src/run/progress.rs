//! How far a run is.
use replay::harness::met::Met;
use std::io::IsTerminal;
use std::time::Duration;

pub struct Progress {
    pub done: u64,
    pub count: u64,
    pub spent: Duration,
    pub met: Met,
}

impl Progress {
    /// In one line: done, rate, time left, counts.
    pub fn line(&self) -> String {
        let rate = self.done as f64 / self.spent.as_secs_f64();
        let left = (self.count - self.done) as f64 / rate.max(1e-9);
        let (done, count) = (self.done, self.count);
        let (accepted, refused, numbers) = (self.met.of(0), self.met.refused(), self.met.numbers());
        format!(
            "{done} of {count} texts, {rate:.0} a second, {left:.0} s left; answers: {accepted} accepted, \
             {refused} refused with {numbers} numbers"
        )
    }

    /// On a terminal each line takes the last one's place.
    pub fn tell(&self) {
        if std::io::stderr().is_terminal() {
            eprint!("\x1b[K{}\r", self.line());
        } else {
            eprintln!("{}", self.line());
        }
    }
}
