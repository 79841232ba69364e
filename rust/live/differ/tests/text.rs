//! The text layer on both sides.
use differ::compare::{check, check_by, compare_long};
use differ::original;
use differ::shapes::Shapes;
use oracle::toml_lite::probe as rust;
use port::text::{self, TEXT_MAX};
use replay::generators::joining;
use replay::generators::random::{self, Rng, turns};
use replay::harness::ask::text::ask;

const SEED: u64 = 20_240_601;

#[test]
fn all_texts_up_to_five_characters() {
    let letters = ["[", "]", "\"", "\\", "#", "=", "\n", "\r", "a"];
    let mut layer = vec![String::new()];
    for length in 0..=5 {
        layer.iter().for_each(|t| check(t));
        if length < 5 {
            let longer = |t: &String| letters.map(|c| format!("{t}{c}"));
            layer = layer.iter().flat_map(longer).collect();
        }
    }
    assert_eq!(layer.len(), 9usize.pow(5));
}

#[test]
fn random_texts() {
    let (mut r, mut met) = (Rng::new(SEED), Shapes::default());
    for _ in 0..turns(100_000) {
        let t = random::text(&mut r);
        check(&t);
        met.look(&t);
    }
    met.print("joined lines of random texts");
    assert!(met.every_shape());
}

#[test]
fn arrays_over_many_lines() {
    let (mut r, mut met) = (Rng::new(SEED + 3), Shapes::default());
    for _ in 0..turns(5_000) {
        let lines = 1 + r.below(30);
        let t = joining::array(&mut r, lines);
        check_by(&t, compare_long);
        met.look(&t);
    }
    // few, since asking the original about every prefix of one is slow
    for _ in 0..50 {
        let lines = 200 + r.below(100);
        let t = joining::array(&mut r, lines);
        compare_long(&t).unwrap_or_else(|e| panic!("{e}: {t:?}"));
        met.look(&t);
    }
    met.print("joined lines of arrays");
    assert!(met.every_shape() && met.long.iter().all(|&n| n > 0));
}

#[test]
fn corners() {
    differ::corners::CORNERS.iter().for_each(|t| check(t));
}

#[test]
fn two_ways_to_number_lines() {
    let mut r = Rng::new(SEED + 1);
    for _ in 0..5_000 {
        let t = random::text(&mut r);
        assert_eq!(original::by_prefixes(&t), original::by_parts(&t), "{t:?}");
    }
}

#[test]
fn long_texts() {
    let mut r = Rng::new(SEED + 2);
    for length in [1_000, 10_000, TEXT_MAX - 1, TEXT_MAX] {
        for _ in 0..5 {
            let t = long(&mut r, length);
            compare_long(&t).unwrap_or_else(|e| panic!("{length} bytes: {e}: {t:?}"));
        }
    }
}

// Mostly closed lines, so that the text is not over after a few of them.
fn long(r: &mut Rng, length: usize) -> String {
    let pieces = [
        "a = 1\n",
        "f = [\"x\", # ]\n\n \"\\\"\",\r\n]\n",
        "s = \"é # \u{3000}\"\n",
        "\u{A0}\r\n",
        "[[p]] # \"\n",
        "s = \"x\\\ny\"\n",
    ];
    let mut t = String::new();
    while t.len() + 40 < length {
        t.push_str(r.pick(&pieces));
    }
    t.push_str(&"z".repeat(length - t.len()));
    t
}

fn trims(s: &str) {
    let got = text::trim(s.as_bytes());
    assert_eq!((got.from, got.end), original::trim(s), "{s:?}");
}

#[test]
fn every_scalar_value_at_both_ends() {
    let mut batch = String::new();
    for c in '\0'..=char::MAX {
        let (alone, around) = (String::from(c), String::from_iter([c, 'a', c]));
        trims(&alone);
        trims(&around);
        if "\"\\[]#\n\r".contains(c) {
            check(&alone);
            check(&around);
            check(&format!("{c} = [\n{c}]\n{c}"));
            continue;
        }
        batch.extend([&alone, "\n", &around, "\n"]);
        if batch.len() > TEXT_MAX - 20 {
            closed_lines(&batch);
            batch.clear();
        }
    }
    closed_lines(&batch);
}

// Lines that are closed each by itself, so that each is numbered by asking about it alone.
fn closed_lines(batch: &str) {
    let alone = |(k, line): (usize, &str)| {
        let joined = rust::logical_lines(line).expect("closed by itself");
        joined.into_iter().map(move |j| (k + 1, j))
    };
    let want: Vec<_> = batch.lines().enumerate().flat_map(alone).collect();
    let all = rust::logical_lines(batch).expect("closed");
    assert!(all.iter().eq(want.iter().map(|(_, line)| line)));
    let got = ask(batch).expect("asked");
    assert_eq!(got.refusal, None);
    assert_eq!(got.lines, want);
}
