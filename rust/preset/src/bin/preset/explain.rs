//! `preset explain`: what a number means and how it is mended.
use crate::answer::Answer;
use preset::{explain, shown};
use std::ffi::OsStr;

pub fn explain(number: &OsStr) -> Answer {
    let asked = number.to_str().and_then(|word| word.parse().ok());
    match asked.and_then(explain::entry) {
        Some(entry) => Answer::result(format!("{}\n", entry.to_string().trim_end())),
        None => {
            let known: Vec<_> = explain::entries()
                .iter()
                .map(|e| e.number.to_string())
                .collect();
            let word = shown::quoted(&number.to_string_lossy());
            let known = known.join(" ");
            Answer::failed(format!(
                "no refusal has the number {word}; there are {known}"
            ))
        }
    }
}
