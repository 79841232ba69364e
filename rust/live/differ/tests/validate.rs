//! Validation on all sides: the port, the definitions and the original.
use differ::record::VALIDATE;
use differ::records::compare::check_random;
use differ::validate::compare::judge;
use replay::generators::random::{Rng, turns};
use replay::generators::records::random::NAMES;
use replay::generators::validate::cases::CASES;
use replay::generators::validate::spelled;
use replay::harness::met::Met;
use replay::harness::vector::document as vector;
use replay::model::validate::NUMBERS;

#[test]
fn corners() {
    let mut judge = judge();
    for (i, text) in VALIDATE.texts().enumerate() {
        judge.name = NAMES[i % NAMES.len()].to_vec();
        judge.check(&vector::joined(&text));
    }
    assert_eq!(judge.seldom(3), None, "{}", judge.met.summary());
}

// Each boundary by itself; between them all numbers are met.
#[test]
fn around_every_boundary() {
    let (mut r, mut all) = (Rng::new(SEED), Met::default());
    for (name, presets) in CASES {
        let mut judge = judge();
        for preset in presets() {
            judge.check(spelled::text(&mut r, &preset).as_bytes());
        }
        judge.met.print(&format!("validated, {name}"));
        all.add(&judge.met);
    }
    assert_eq!(all.seldom(NUMBERS, 10), None, "{}", all.summary());
}

const SEED: u64 = 20_241_115;

#[test]
fn random_presets() {
    let met = check_random("random presets, validated", judge, SEED, 100_000);
    assert!(met.for_locks(67) >= turns(1_000), "{}", met.summary());
}
