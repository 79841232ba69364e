//! What the command answers: results, what is said beside them, and the exit status.
use crate::input::said;
use std::io::{Error, ErrorKind, Write, stderr, stdout};
use std::mem::take;
use std::process::ExitCode;

pub const ACCEPTED: u8 = 0;
pub const REFUSED: u8 = 1;
pub const FAILED: u8 = 2;

#[derive(Default)]
pub struct Answer {
    /// For standard output: results alone.
    pub out: Vec<u8>,
    /// For standard error.
    pub err: String,
    pub status: u8,
    /// What both had before, in turn.
    pub earlier: Vec<(Vec<u8>, String)>,
}

impl Answer {
    pub fn result(out: impl Into<Vec<u8>>) -> Answer {
        Answer {
            out: out.into(),
            ..Answer::default()
        }
    }

    /// The command itself could not do what it was asked.
    pub fn failed(why: impl std::fmt::Display) -> Answer {
        Answer {
            err: format!("preset: {why}\n"),
            status: FAILED,
            ..Answer::default()
        }
    }

    /// Puts another answer after this one; the worse status counts.
    pub fn and(&mut self, mut other: Answer) {
        other.earlier.push((other.out, other.err));
        for (out, err) in other.earlier {
            self.out.extend(out);
            self.err += &err;
        }
        self.status = self.status.max(other.status);
    }

    /// The same, but whoever sees both outputs sees all of this one first.
    pub fn then(&mut self, other: Answer) {
        let said = (take(&mut self.out), take(&mut self.err));
        self.earlier.push(said);
        self.and(other);
    }

    /// Writes it. Who reads standard output may stop before its end; other faults of writing are told.
    pub fn given(mut self) -> ExitCode {
        let mut written = Ok(());
        self.earlier.push((self.out, self.err));
        for (out, err) in self.earlier {
            written = written.and_then(|()| put(&out));
            tell(&err);
        }
        match written {
            Err(why) if why.kind() != ErrorKind::BrokenPipe => {
                let why = said(&why);
                tell(&format!(
                    "preset: standard output cannot be written: {why}\n"
                ));
                ExitCode::from(FAILED)
            }
            _ => ExitCode::from(self.status),
        }
    }
}

fn put(out: &[u8]) -> Result<(), Error> {
    stdout().write_all(out).and_then(|()| stdout().flush())
}

// Where standard error cannot be written there is nobody to tell.
fn tell(err: &str) {
    let _ = stderr().write_all(err.as_bytes());
}
