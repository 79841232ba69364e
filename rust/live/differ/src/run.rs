//! A run over many texts, each made from the run's seed and its own number.
pub mod command;
pub mod progress;
pub mod sides;

use crate::shorten::shortest_difference;
use progress::Progress;
use replay::generators::random::Rng;
use replay::harness::met::Met;
use sides::{Sides, compared};
use std::sync::atomic::{AtomicU64, Ordering};
use std::sync::mpsc::{self, RecvTimeoutError};
use std::sync::{Mutex, MutexGuard};
use std::thread;
use std::time::{Duration, Instant};

/// Makes what compares texts, once for each thread.
pub type Make = fn() -> Box<dyn Sides>;

/// So many texts of that seed, numbered from 1.
#[derive(Clone, Copy)]
pub struct Run {
    pub sides: Make,
    pub count: u64,
    pub seed: u64,
}

/// A text that differs, with all that is to be said of it.
#[derive(Debug)]
pub struct Difference {
    pub number: u64,
    pub told: String,
}

// What the threads of a run share.
struct Shared {
    next: AtomicU64,
    done: AtomicU64,
    // of each thread
    met: Vec<Mutex<Met>>,
    // the least number of a text that differs, and how it does
    found: Mutex<Option<(u64, String)>>,
}

impl Shared {
    fn met(&self) -> Met {
        let mut all = Met::default();
        self.met.iter().for_each(|met| all.add(&locked(met)));
        all
    }

    fn differs(&self, number: u64, how: String) {
        let mut found = locked(&self.found);
        if found.as_ref().is_none_or(|(least, _)| number < *least) {
            *found = Some((number, how));
        }
    }
}

fn locked<T>(it: &Mutex<T>) -> MutexGuard<'_, T> {
    it.lock().expect("no thread panics while it holds this")
}

const STEP: Duration = Duration::from_secs(1);

impl Run {
    /// Compares all texts, on every processor, and tells how far it is about once a second. The text
    /// that differs is the same for any number of processors: the first.
    pub fn go(&self, tell: impl Fn(&Progress)) -> Result<Met, Difference> {
        let (start, threads) = (Instant::now(), thread::available_parallelism());
        let shared = Shared {
            next: AtomicU64::new(1),
            done: AtomicU64::new(0),
            met: (0..threads.map_or(1, usize::from))
                .map(|_| Mutex::default())
                .collect(),
            found: Mutex::new(None),
        };
        let (working, ended) = mpsc::channel::<()>();
        thread::scope(|scope| {
            for met in &shared.met {
                let (shared, working) = (&shared, working.clone());
                scope.spawn(move || {
                    self.work(shared, met);
                    drop(working);
                });
            }
            drop(working);
            while ended.recv_timeout(STEP) == Err(RecvTimeoutError::Timeout) {
                tell(&Progress {
                    done: shared.done.load(Ordering::Relaxed),
                    count: self.count,
                    spent: start.elapsed(),
                    met: shared.met(),
                });
            }
        });
        match locked(&shared.found).take() {
            None => Ok(shared.met()),
            Some((number, how)) => Err(self.difference(number, how)),
        }
    }

    fn work(&self, shared: &Shared, met: &Mutex<Met>) {
        let mut sides = (self.sides)();
        while locked(&shared.found).is_none() {
            let number = shared.next.fetch_add(1, Ordering::Relaxed);
            if number > self.count {
                break;
            }
            let text = sides.make(&mut self.rng(number));
            if let Err(how) = compared(sides.as_mut(), &text) {
                shared.differs(number, how);
            }
            shared.done.fetch_add(1, Ordering::Relaxed);
            *locked(met) = sides.met();
        }
    }

    // Two numbers, each through a mixing function, so that neighbours have nothing in common.
    fn rng(&self, number: u64) -> Rng {
        Rng::new(Rng::new(self.seed).draw() ^ Rng::new(number).draw().rotate_left(1))
    }

    /// One of the texts by itself, in all sorts of rooms; the text, and where it differs how.
    pub fn only(&self, number: u64) -> (Vec<u8>, Result<String, Difference>) {
        let mut sides = (self.sides)();
        sides.fully();
        let text = sides.make(&mut self.rng(number));
        let told = match compared(sides.as_mut(), &text) {
            Ok(()) => Ok(sides.answers(&text)),
            Err(how) => Err(self.difference(number, how)),
        };
        (text, told)
    }

    // Shortened, with both answers.
    fn difference(&self, number: u64, how: String) -> Difference {
        let mut sides = (self.sides)();
        sides.fully();
        let text = sides.make(&mut self.rng(number));
        let (short, how) = shortest_difference(&text, how, |t| compared(sides.as_mut(), t));
        let (seed, length, shown) = (self.seed, short.len(), short.escape_ascii());
        let answers = sides.answers(&short);
        Difference {
            number,
            told: format!(
                "seed {seed}, text {number} differs; again with `--only {seed} {number}`\n\
                 the shortest found, {length} bytes: \"{shown}\"\n{how}\n{answers}"
            ),
        }
    }
}
