//! What is asked about planning.
use super::original;
use crate::records::compare::{Answers, Judge, Question, agree};
use crate::records::original::parsed;
use crate::validate::compare::VALIDATE;
use oracle::preset::Preset as Theirs;
use preset::Preset;
use replay::generators::plan::keys::{Answered, answers};
use replay::generators::plan::random;
use replay::harness::ask::plan::{PLAN as DOOR, difference};
use replay::harness::ask::records::{Host, about};
use replay::model::plan as model;

/// What is planned for all that may be selected.
pub const PLAN: Question = Question {
    original: original::read,
    numbers: &model::NUMBERS,
    random: random::text,
    selected: answers,
    agreed,
    ..VALIDATE
};

/// All sides.
pub fn judge() -> Judge {
    Judge::new(PLAN, Host::new(DOOR))
}

// The original plans the same of a preset that is accepted.
fn agreed(text: &[u8], name: &[u8], told: &Answers) -> Result<(), String> {
    let Ok(answer) = &told.read else {
        return Ok(());
    };
    let text = std::str::from_utf8(text).map_err(|e| format!("not refused with 2: {e}"))?;
    let theirs = parsed(text, name).map_err(|told| format!("accepted against {told:?}"))?;
    for Answered { selected: key, .. } in &told.all {
        let same = same(&answer.preset, &theirs, key.as_deref());
        same.map_err(|e| format!("{}definition against original, {e}", about(key)))?;
    }
    Ok(())
}

// A key that is not UTF-8 cannot be handed to the original.
fn same(preset: &Preset, theirs: &Theirs, key: Option<&[u8]>) -> Result<(), String> {
    let Ok(utf8) = key.map(std::str::from_utf8).transpose() else {
        return Ok(());
    };
    let (ours, theirs) = (model::plan(preset, key), original::plan(theirs, utf8));
    let (ours, theirs) = (ours.as_ref(), theirs.as_ref());
    agree(ours.map_err(|e| *e), theirs.map_err(|e| *e), difference)
}
