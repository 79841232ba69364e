//! All that reading a preset leaves.
use super::document;
use port::document::Outcome;
pub use preset::Preset;

/// An accepted preset: what its text leaves, and its records.
#[derive(Clone, Debug, PartialEq, Eq)]
pub struct Answer {
    pub text: document::Answer,
    pub preset: Preset,
}

/// Its number, its section and its place there.
#[derive(Clone, Copy, Debug, PartialEq, Eq)]
pub struct Refusal {
    pub number: u32,
    pub section: u32,
    pub place: usize,
}

pub type Read = Result<Answer, Refusal>;

/// What the port says beside the rooms.
pub fn outcome(want: &Read) -> Outcome {
    let none = Refusal {
        number: 0,
        section: 0,
        place: 0,
    };
    let (refusal, made) = match want {
        Ok(answer) => (none, answer.text.made),
        Err(refusal) => (*refusal, 0),
    };
    Outcome {
        number: refusal.number,
        section: refusal.section,
        place: refusal.place as u32,
        made: made as u32,
    }
}
