//! Whole texts on both sides.
use differ::document::compare::Judge;
use differ::record::DOCUMENT;
use replay::generators::document as random;
use replay::generators::random::Rng;
use replay::harness::vector::document as vector;

// Every text of these letters up to that many of them.
fn up_to(most: usize, letters: &[&str], judge: &mut Judge) -> usize {
    fn longer(text: &mut Vec<u8>, left: usize, letters: &[&str], judge: &mut Judge) -> usize {
        judge.check(text);
        let length = text.len();
        let mut count = 1;
        for letter in letters.iter().filter(|_| left > 0) {
            text.extend(letter.as_bytes());
            count += longer(text, left - 1, letters, judge);
            text.truncate(length);
        }
        count
    }
    longer(&mut Vec::new(), most, letters, judge)
}

#[test]
fn all_texts_up_to_five_characters() {
    let letters = [
        "a", "\"", "\\", "[", "]", "=", ".", ",", "#", "\n", "1", " ",
    ];
    let mut judge = Judge::default();
    assert_eq!(up_to(5, &letters, &mut judge), 271_453);
    judge.met.print("all texts up to five characters");
}

// All ways of making, walking and replacing.
#[test]
fn all_texts_up_to_five_lines() {
    let letters = [
        "[a]\n",
        "[[a]]\n",
        "[a.b]\n",
        "[[a.b]]\n",
        "a = 1\n",
        "a.b = \"x\"\n",
        "a = [1]\n",
        "b = [[], true]\n",
    ];
    let mut judge = Judge::default();
    assert_eq!(up_to(5, &letters, &mut judge), 37_449);
    judge.met.print("all texts up to five lines");
}

#[test]
fn corners_and_limits() {
    let mut judge = Judge::default();
    for text in DOCUMENT.texts() {
        judge.check(&vector::joined(&text));
    }
    let unmet = judge.met.seldom(0..=16, 1);
    assert_eq!(unmet, None, "{}", judge.met.summary());
}

const SEED: u64 = 20_240_603;
const COUNT: usize = 100_000;
const LEAST: usize = 100;

#[test]
fn random_presets() {
    let (mut r, mut judge) = (Rng::new(SEED), Judge::default());
    for _ in 0..COUNT {
        judge.check(&random::text(&mut r));
    }
    judge.met.print("random texts");
    assert_eq!(judge.met.seldom(0..=16, LEAST), None, "met too seldom");
}
