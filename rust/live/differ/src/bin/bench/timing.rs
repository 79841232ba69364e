//! Medians of both sides on the same input, taking turns in one run.
use std::hint::black_box;
use std::time::{Duration, Instant};

const RUNS: usize = 301;
const LEAST_RUNS: usize = 7;
// A short text is run for this long, so that no few runs on a busy machine decide.
const LEAST_TIME: Duration = Duration::from_millis(500);
// One text is measured no longer than this once it had its least number of runs.
const BUDGET: Duration = Duration::from_secs(10);

/// How often it was run, and the medians.
pub struct Times {
    pub runs: usize,
    pub ours: Duration,
    pub theirs: Duration,
}

impl Times {
    pub fn ratio(&self) -> f64 {
        self.ours.as_secs_f64() / self.theirs.as_secs_f64()
    }

    /// As columns of a table.
    pub fn columns(&self) -> String {
        let (runs, ours, theirs, ratio) = (self.runs, self.ours, self.theirs, self.ratio());
        format!("{runs} | {ours:.1?} | {theirs:.1?} | {ratio:.3}")
    }

    /// As columns without the ratio, each time also in nanoseconds for each of so many bytes or lines.
    pub fn columns_for_each(&self, count: usize) -> String {
        let [ours, theirs] = [self.ours, self.theirs].map(|time| {
            let each = time.as_nanos() as f64 / count as f64;
            format!("{time:.1?} | {each:.1}")
        });
        format!("{ours} | {theirs}")
    }
}

/// Both passes in turns.
pub fn measured<A, B>(mut ours: impl FnMut() -> A, mut theirs: impl FnMut() -> B) -> Times {
    turns(|| (timed(&mut ours), timed(&mut theirs)))
}

/// The same, where one turn takes both times by itself.
pub fn turns(mut turn: impl FnMut() -> (Duration, Duration)) -> Times {
    let (mut a, mut b) = (Vec::new(), Vec::new());
    let start = Instant::now();
    let more = |runs: usize| {
        let spent = start.elapsed();
        runs < LEAST_RUNS || spent < LEAST_TIME || runs < RUNS && spent < BUDGET
    };
    while more(a.len()) {
        let (ours, theirs) = turn();
        a.push(ours);
        b.push(theirs);
    }
    Times {
        runs: a.len(),
        ours: median(a),
        theirs: median(b),
    }
}

pub fn timed<T>(pass: impl FnOnce() -> T) -> Duration {
    let start = Instant::now();
    drop(black_box(pass()));
    start.elapsed()
}

fn median(mut times: Vec<Duration>) -> Duration {
    times.sort();
    times[times.len() / 2]
}
