//! Presets on all sides: the port, the definitions and the original.
use differ::record::RECORDS;
use differ::records::compare::{Judge, RECORDS as ASKED, answers, check_random};
use replay::generators::random::{Rng, turns};
use replay::generators::records::draft::Draft;
use replay::generators::records::edits::{edited, edits, faults, paired};
use replay::generators::records::random::{NAMES, name, text};
use replay::generators::records::spelling::paths;
use replay::harness::vector::document as vector;

#[test]
fn every_field_in_every_spelling() {
    let mut judge = Judge::records();
    for base in Draft::all() {
        for edit in edits() {
            judge.check(edited(&base, &edit).as_bytes());
        }
    }
    judge.met.print("read, every field in every spelling");
    assert_eq!(judge.seldom(10), None, "{}", judge.met.summary());
}

// Which of two faults is told goes by the order of reading, whatever stands first.
#[test]
fn faults_in_pairs() {
    let (mut judge, faults) = (Judge::records(), faults());
    for base in Draft::all() {
        for first in &faults {
            for second in &faults {
                judge.check(paired(&base, first, second).as_bytes());
            }
        }
    }
    judge.met.print("read, faults in pairs");
    assert_eq!(judge.seldom(LEAST), None, "{}", judge.met.summary());
}

#[test]
fn corners_and_limits() {
    let mut judge = Judge::records();
    for (i, text) in RECORDS.texts().enumerate() {
        judge.name = NAMES[i % NAMES.len()].to_vec();
        judge.check(&vector::joined(&text));
    }
    assert_eq!(judge.seldom(1), None, "{}", judge.met.summary());
}

// Every path up to seven characters, 64 components to a preset.
#[test]
fn file_names() {
    let paths = paths(&["/", ".", "a"], 7);
    assert_eq!(paths.len(), 3_280);
    let mut judge = Judge::records();
    for some in paths.chunks(64) {
        let one = |path| format!("[[component]]\nname = \"c\"\nfile = \"{path}\"\n");
        judge.check(some.iter().map(one).collect::<String>().as_bytes());
    }
    assert_eq!(judge.met.of(0), 3_280usize.div_ceil(64));
}

#[test]
fn lent_names() {
    let long = vec![b'n'; 4_000];
    let broken = [&long[..], b"\xE2"].concat();
    let mut judge = Judge::records();
    for name in NAMES.into_iter().chain([&long[..], &broken]) {
        judge.name = name.to_vec();
        for text in [
            "",
            "[board]",
            "[board]\nname = \"own\"",
            "[board]\nname = 1",
        ] {
            judge.check(text.as_bytes());
        }
    }
}

const SEED: u64 = 20_240_917;
const COUNT: usize = 100_000;
const LEAST: usize = 100;

#[test]
fn random_presets() {
    let met = check_random("random presets, read", Judge::records, SEED, COUNT);
    assert!(met.for_locks(20) >= turns(5 * LEAST), "{}", met.summary());
}

// The second derivation alone, on other presets than above.
#[test]
fn definitions_against_the_original() {
    let mut r = Rng::new(SEED + 10);
    for _ in 0..turns(COUNT / 10) {
        let (name, text) = (name(&mut r), text(&mut r));
        let read = answers(&ASKED, &text, &name);
        read.map_err(|e| panic!("{}: {e}", text.escape_ascii()))
            .ok();
    }
}
