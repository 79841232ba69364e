//! Mistakes that people make in presets, typed into examples, each with all that `preset check` tells of it.
mod locks;
mod noted;
mod refused;

use std::path::{Path, PathBuf};
use std::process::Command;

/// What a person did to an example, and what the person should be told.
pub struct Mistake {
    pub what: &'static str,
    /// One after the other: what stands in the text exactly once then, and what is typed in its place.
    pub edits: &'static [(&'static str, &'static str)],
    /// Lines of standard output, then of standard error, without the file's name: `12: refused ..`, `12: note: ..`.
    pub told: &'static [&'static str],
}

const STAGE: &str = include_str!("../../../../presets/stage-d13x.toml");
const CALIB: &str = include_str!("../../../../presets/calib-d13x.toml");

#[test]
fn refusals_lead_to_the_mend() {
    asked("refused", STAGE, refused::ALL);
}

#[test]
fn nothing_passes_without_a_word() {
    asked("noted", STAGE, noted::ALL);
}

#[test]
fn mistakes_with_locks() {
    asked("locks", CALIB, locks::ALL);
}

#[test]
fn at_least_a_hundred_are_asked() {
    assert!(refused::ALL.len() + noted::ALL.len() >= 100);
}

// All mistakes are tried, by one call, before one that is told otherwise fails the test.
fn asked(table: &str, example: &str, mistakes: &[Mistake]) {
    let folder = Path::new(env!("CARGO_TARGET_TMPDIR")).join(table);
    std::fs::create_dir_all(&folder).expect("target/ can be written");
    let files = mistakes.iter().enumerate().map(|(n, mistake)| {
        let file = folder.join(format!("{n}.toml"));
        std::fs::write(&file, edited(example, mistake)).expect("target/ can be written");
        file
    });
    let files: Vec<PathBuf> = files.collect();
    let said = said(&files);
    let wrong = mistakes.iter().zip(&files).filter_map(|(mistake, file)| {
        let told = told(&said, file);
        let said = (told != mistake.told).then_some(told)?;
        Some(format!("{}\n{}\n", mistake.what, said.join("\n")))
    });
    let wrong: Vec<_> = wrong.collect();
    assert!(wrong.is_empty(), "told otherwise:\n\n{}", wrong.join("\n"));
}

fn edited(example: &str, mistake: &Mistake) -> String {
    let mut text = example.to_string();
    for (old, new) in mistake.edits {
        let met = text.matches(old).count();
        assert_eq!(met, 1, "{}: {old:?} is met {met} times", mistake.what);
        text = text.replacen(old, new, 1);
    }
    text
}

// Standard output, then standard error; elsewhere than on x86-64 `rust/cross` names an emulator.
fn said(files: &[PathBuf]) -> String {
    let runner = std::env::var("CARGO_TARGET_X86_64_UNKNOWN_LINUX_GNU_RUNNER");
    let mut check = Command::new(runner.as_deref().unwrap_or("env"));
    check
        .arg(env!("CARGO_BIN_EXE_preset"))
        .arg("check")
        .args(files);
    let answer = check.output().expect("it runs");
    let both = [answer.stdout, answer.stderr].concat();
    String::from_utf8(both).expect("its words are UTF-8")
}

// What is told of a file. Lines that only repeat the preset's own line, or lead to `explain`, are left out.
fn told(said: &str, file: &Path) -> Vec<String> {
    let name = format!("{}:", file.display());
    let lines = said.lines().filter_map(|line| line.strip_prefix(&name));
    lines.map(|line| line.trim_start().to_string()).collect()
}
