//! What is asked about validation.
use super::original;
use crate::records::compare::{Judge, Question, RECORDS};
use replay::generators::validate::random;
use replay::harness::ask::records::{self as ask, Host};
use replay::model::validate as model;

/// Whether presets break a rule.
pub const VALIDATE: Question = Question {
    defined: model::read_within,
    original: original::read,
    numbers: &model::NUMBERS,
    random: random::text,
    ..RECORDS
};

/// All sides.
pub fn judge() -> Judge {
    Judge::new(VALIDATE, Host::new(ask::VALIDATE))
}
