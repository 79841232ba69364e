//! The long run: `long [COUNT [SEED]]` compares so many texts of all sorts (a million where no count is
//! given; the seed is the clock's where none is), `long --only SEED NUMBER` one of them.
//! Ends with 1 on a difference, and where a refusal of 01 was never met.
use differ::long::{All, enough};
use differ::run::Run;
use differ::run::command::command;
use std::process::ExitCode;
use std::time::SystemTime;

fn main() -> ExitCode {
    let words: Vec<_> = std::env::args().skip(1).collect();
    let clock = SystemTime::UNIX_EPOCH.elapsed();
    let run = Run {
        sides: || Box::new(All::default()),
        count: 1_000_000,
        seed: clock.expect("after 1970").as_millis() as u64,
    };
    command(run, &words, enough)
}
