//! The listing on all sides: the port, the definitions and the original.
use differ::listing::compare::Judge;
use differ::record::LISTING;
use differ::run::Run;
use replay::generators::plan::cases::CASES;
use replay::generators::random::Rng;
use replay::generators::validate::spelled;
use replay::generators::{large, names};
use replay::harness::vector::document as vector;

#[test]
fn corners() {
    let mut judge = Judge::default();
    for (i, text) in LISTING.texts().enumerate() {
        judge.name = names::nth_lent(i).to_vec();
        judge.check(&vector::joined(&text));
    }
    assert_eq!(judge.met.unmet(), [80, 81], "{}", judge.met.summary());
}

// Each name lent to a preset whose stem it is, and the longest lines there are.
#[test]
fn odd_names() {
    let mut judge = Judge::default();
    let text = large::escaped();
    let raw = text.replace("\"app\"", "\"raw\"");
    for text in [text, large::long_names(false), large::long_names(true)] {
        judge.check(text.as_bytes());
    }
    for n in 0..100 {
        judge.name = names::nth_lent(n).to_vec();
        judge.check(raw.as_bytes());
    }
    judge.name = vec![b'\\'; 20_000];
    judge.check(raw.as_bytes());
    assert_eq!(judge.met.of(0), 104, "{}", judge.met.summary());
}

#[test]
fn around_every_boundary() {
    let (mut r, mut judge) = (Rng::new(SEED), Judge::default());
    for (_, presets) in CASES {
        for preset in presets() {
            judge.check(spelled::text(&mut r, &preset).as_bytes());
        }
    }
    assert!(judge.met.of(0) > 3_000, "{}", judge.met.summary());
}

const SEED: u64 = 20_241_202;

#[test]
fn random_presets() {
    let run = Run {
        sides: || Box::new(Judge::default()),
        count: 30_000,
        seed: SEED,
    };
    let met = run.go(|_| ()).unwrap_or_else(|e| panic!("{}", e.told));
    met.print("random presets, listed");
    assert_eq!(met.unmet(), [80, 81], "{}", met.summary());
    let often = 3_000..10_000;
    assert!(often.contains(&met.left_out()), "{}", met.summary());
}
