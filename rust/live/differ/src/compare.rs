//! One text through both sides.
use crate::original;
use crate::shorten::shortest;
use port::text;
use replay::harness::ask::text::ask;
use replay::model::answer::text::Answer;

/// Every answer of the text layer on both sides, or the first difference.
pub fn compare(text: &str) -> Result<(), String> {
    against(text, &original::answer(text))
}

/// The same for long texts.
pub fn compare_long(text: &str) -> Result<(), String> {
    against(text, &original::answer_long(text))
}

fn against(text: &str, want: &Answer) -> Result<(), String> {
    if !original::whole_agrees(text, want) {
        return Err("the original's prefixes and its whole disagree".into());
    }
    let got = ask(text)?;
    if let Some(difference) = got.difference(want) {
        return Err(format!("port against original, {difference}"));
    }
    want.lines.iter().try_for_each(|(_, line)| trims(line))
}

// The reader of the next layer trims each joined line.
fn trims(line: &str) -> Result<(), String> {
    let (got, want) = (text::trim(line.as_bytes()), original::trim(line));
    if (got.from, got.end) == want {
        return Ok(());
    }
    Err(format!("trim of {line:?}: {got:?} against {want:?}"))
}

/// Compares and, on a difference, panics with the shortest failing text.
pub fn check(text: &str) {
    check_by(text, compare);
}

/// The same for any comparison.
pub fn check_by(text: &str, compare: impl Fn(&str) -> Result<(), String>) {
    if compare(text).is_err() {
        let short = shortest(text, |t| compare(t).is_err());
        panic!("{short:?}: {}", compare(&short).unwrap_err());
    }
}
