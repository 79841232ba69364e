//! Planning on all sides: the port, the definitions and the original.
use differ::plan::compare::{PLAN as ASKED, judge};
use differ::record::PLAN;
use differ::records::compare::{answers, check_random};
use replay::generators::plan::cases::CASES;
use replay::generators::plan::random;
use replay::generators::random::{Rng, stride, turns};
use replay::generators::records::random::{NAMES, name};
use replay::generators::records::spelling::paths;
use replay::generators::validate::spelled;
use replay::harness::met::Met;
use replay::harness::vector::document as vector;
use replay::model::plan::NUMBERS;

#[test]
fn corners() {
    let mut judge = judge();
    for (i, text) in PLAN.texts().enumerate() {
        judge.name = NAMES[i % NAMES.len()].to_vec();
        judge.check(&vector::joined(&text));
    }
    assert_eq!(judge.seldom(5), None, "{}", judge.met.summary());
}

// Each sort by itself; between them both numbers are met.
#[test]
fn around_every_boundary() {
    let (mut r, mut all) = (Rng::new(SEED), Met::default());
    for (name, presets) in CASES {
        let mut judge = judge();
        for preset in presets().into_iter().step_by(stride()) {
            judge.check(spelled::text(&mut r, &preset).as_bytes());
        }
        judge.met.print(&format!("planned, {name}"));
        all.add(&judge.met);
    }
    let least = 100 / stride();
    assert_eq!(all.seldom(NUMBERS, least), None, "{}", all.summary());
}

const SEED: u64 = 20_241_118;
const COUNT: usize = 30_000;

#[test]
fn random_presets() {
    let met = check_random("random presets, planned", judge, SEED, COUNT);
    assert!(met.for_locks(67) >= turns(50), "{}", met.summary());
}

// The second derivation alone, on other presets than above.
#[test]
fn definitions_against_the_original() {
    let (mut r, mut met) = (Rng::new(SEED + 10), Met::default());
    for _ in 0..turns(COUNT) {
        let (name, text) = (name(&mut r), random::text(&mut r));
        let told = answers(&ASKED, &text, &name);
        let told = told.unwrap_or_else(|e| panic!("{}: {e}", text.escape_ascii()));
        let told = told.told.all.into_iter();
        let numbers = told.map(|one| one.refusal.map_or(0, |e| e.number));
        numbers.for_each(|number| met.count(number));
    }
    met.print("random presets, planned by definitions and original alone");
    assert_eq!(met.seldom(NUMBERS, 100), None, "met too seldom");
}

// Every path up to seven characters of the one component, which leads.
#[test]
fn file_stems() {
    let mut judge = judge();
    for path in paths(&["/", ".", "a"], 7) {
        let text = format!(
            "[[partition]]\nname = \"a\"\noffset = 0\nsize = 4096\n[[component]]\nname = \"c\"\n\
             kind = \"app\"\npartition = \"a\"\nfile = \"{path}\"\n"
        );
        judge.check(text.as_bytes());
    }
    assert_eq!(judge.met.of(0), 3_280, "{}", judge.met.summary());
}
