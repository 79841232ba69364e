//! Integers, strings, keys and values on both sides.
use differ::compare::check_by;
use differ::value::compare;
use replay::generators::random::{Rng, turns};
use replay::generators::value as random;
use replay::harness::ask::value as ask;
use replay::model::text::WHITE;

const SEED: u64 = 20_240_602;
const COUNT: usize = 100_000;

// Every text of these letters up to that many of them.
fn up_to(most: usize, letters: &[&str], check: &impl Fn(&str)) {
    fn longer(text: &mut String, left: usize, letters: &[&str], check: &impl Fn(&str)) {
        check(text);
        if left == 0 {
            return;
        }
        for letter in letters {
            text.push_str(letter);
            longer(text, left - 1, letters, check);
            text.truncate(text.len() - letter.len());
        }
    }
    longer(&mut String::new(), most, letters, check);
}

fn int(text: &str) {
    check_by(text, compare::int);
}

fn string(text: &str) {
    check_by(text, compare::string);
}

fn key(text: &str) {
    check_by(text, compare::key);
}

fn value(text: &str) {
    check_by(text, compare::value);
}

#[test]
fn all_short_integers() {
    let letters = ["0", "1", "9", "x", "X", "-", "+", "_", "f"];
    up_to(6, &letters, &int);
}

#[test]
fn all_short_strings() {
    let letters = ["\"", "\\", "n", "t", "r", "a", "é", "\n"];
    up_to(6, &letters, &string);
}

#[test]
fn all_short_keys() {
    let letters = ["\"", "\\", "n", ".", "a", " ", "\u{A0}"];
    up_to(6, &letters, &key);
}

#[test]
fn all_short_values() {
    let letters = ["\"", "\\", "[", "]", ",", "1", " ", "-", "_", "x", "t"];
    up_to(5, &letters, &value);
}

#[test]
fn all_short_arrays() {
    let letters = ["\"", "[", "]", ",", "1", "\u{3000}"];
    let check = |inner: &str| value(&format!("[{inner}]"));
    up_to(6, &letters, &check);
}

fn random(seed: u64, make: fn(&mut Rng) -> String, check: fn(&str)) {
    let mut r = Rng::new(SEED + seed);
    for _ in 0..turns(COUNT) {
        check(&make(&mut r));
    }
}

#[test]
fn random_integers() {
    random(0, random::int, int);
}

#[test]
fn random_strings() {
    random(1, random::string, string);
}

#[test]
fn random_keys() {
    random(2, random::key, key);
}

#[test]
fn random_values() {
    random(3, random::value, value);
}

#[test]
fn corners() {
    let all = differ::value::corners::CORNERS;
    all.iter().for_each(|t| check_by(t, compare::all));
}

// Two below to two above the powers that matter, in both bases.
fn limits() -> impl Iterator<Item = u128> {
    let powers = [7, 8, 15, 16, 31, 32, 62, 63, 64, 65, 68, 127].map(|n| 1u128 << n);
    let tens = [1, 18, 19, 20, 38].map(|n| 10u128.pow(n));
    let all = powers.into_iter().chain(tens).chain([2]);
    all.flat_map(|n| n - 2..=n + 2)
}

// An integer in every way of writing it that changes nothing.
fn written(sign: &str, digits: &str, prefix: &str) -> Vec<String> {
    let plain = format!("{prefix}{sign}{digits}");
    let zeros = [1, 2, 17, 40].map(|n| format!("{prefix}{sign}{}{digits}", "0".repeat(n)));
    let places = 0..=plain.len();
    let marked = places.map(|at| format!("{}_{}", &plain[..at], &plain[at..]));
    let every: String = plain.chars().flat_map(|c| [c, '_', '_']).collect();
    let mut out: Vec<_> = marked.chain(zeros).chain([every]).collect();
    out.push(plain);
    out
}

#[test]
fn integers_around_every_limit() {
    for n in limits() {
        let bases = [
            ("", format!("{n}")),
            ("0x", format!("{n:x}")),
            ("0X", format!("{n:X}")),
        ];
        for (prefix, digits) in bases {
            for sign in ["", "+", "-"] {
                let signed = i128::try_from(n).map(|n| if sign == "-" { -n } else { n });
                let want = signed.ok().and_then(|n| i64::try_from(n).ok());
                for text in written(sign, &digits, prefix) {
                    int(&text);
                    value(&text);
                    assert_eq!(ask::int(text.as_bytes()), Ok(want.ok_or(12)), "{text}");
                }
            }
        }
    }
}

fn nested(depth: usize, inner: &str) -> String {
    format!("{}{inner}{}", "[".repeat(depth), "]".repeat(depth))
}

fn refused(text: &str, number: u32) {
    value(text);
    assert_eq!(
        ask::value(text.as_bytes()),
        Ok(Err(number)),
        "{} bytes",
        text.len()
    );
}

fn accepted(text: &str, count: usize) {
    value(text);
    let got = ask::value(text.as_bytes())
        .expect("asked")
        .expect("accepted");
    assert_eq!(got.lay().1.len(), count);
}

// The original is asked up to 16; at 16,000 it would overflow its stack.
#[test]
fn nesting_around_the_limit() {
    for depth in 1..=16 {
        accepted(&nested(depth, ""), depth);
        accepted(&nested(depth, "1,2"), depth + 2);
        accepted(&nested(depth, "\"a\",1,\"b\""), depth + 3);
        refused(&nested(depth, "x"), 12);
        refused(&nested(depth, "\"a\" b"), 10);
    }
    for depth in [17, 18, 100, 1_000, 16_000] {
        refused(&nested(depth, ""), 14);
        refused(&nested(depth, "x"), 14);
        refused(&"[".repeat(depth), 11);
    }
    refused(&nested(15, "[1"), 11);
    refused(&nested(16, "[1"), 14);
    refused(&nested(16, "x,[1"), 12);
}

// An array of `count` items, and `last` after them.
fn wide(item: &str, count: usize, last: &str) -> String {
    format!("[{}{last}]", format!("{item},").repeat(count))
}

#[test]
fn values_around_the_limit() {
    for (item, each) in [
        ("1", 1),
        ("true", 1),
        ("\"é\"", 1),
        ("[]", 1),
        ("[ \"a\" , 7 ]", 3),
    ] {
        for count in [2_046, 2_047, 2_048, 2_049] {
            let count = count / each;
            let text = wide(item, count, "");
            match 1 + count * each {
                made @ ..=2_048 => accepted(&text, made),
                _ => refused(&text, 16),
            }
        }
    }
}

// Every other fault of one value goes before 16; an array is made before its items are read.
#[test]
fn faults_at_the_limit() {
    accepted(&wide("1", 2_047, " , ,"), 2_048);
    let last = [
        ("x", 12),
        ("\"x\" y", 10),
        ("[1", 11),
        ("\"\\q\"", 8),
        ("\"x", 9),
    ];
    for (text, number) in last {
        refused(&wide("1", 2_047, text), number);
        refused(&wide("1", 2_048, text), 16);
    }
    for text in [
        "1",
        "true",
        "\"\"",
        "[]",
        "[x]",
        "[[[[[[[[[[[[[[[[[]]]]]]]]]]]]]]]]]",
    ] {
        refused(&wide("1", 2_047, text), 16);
    }
}

#[test]
fn segments_around_the_limit() {
    for count in 1..=20 {
        for segment in ["a", "\"a\"", " \"a\" b\"", "é\u{3000}"] {
            let text = vec![segment; count].join(".");
            for at in 0..count {
                for bad in ["", "\"\\q\"", "\"", "\"a\"b"] {
                    let mut parts = vec![segment; count];
                    parts[at] = bad;
                    key(&parts.join("."));
                }
            }
            key(&text);
            let over = ask::key(text.as_bytes()) == Ok(Err(15));
            assert_eq!(over, count > 16, "{count} segments");
        }
    }
}

#[test]
fn white_space_around_items() {
    let others = "\u{1C}\u{1F}\u{84}\u{A1}\u{180E}\u{1FFF}\u{200B}\u{2027}\u{2060}\u{FEFF}\0a";
    for w in WHITE.chars().chain(others.chars()) {
        let texts = [
            format!("{w}1{w}"),
            format!("{w}{w}true{w}{w}"),
            format!("{w}\"{w}\"{w}"),
            format!("{w}[{w}]{w}"),
            format!("[{w},{w}]"),
            format!("{w}[{w}1{w},{w}\"a\"{w},{w}[{w}]{w}]{w}"),
            format!("[1 {w} ,\u{3000}{w}\u{A0}2]"),
            format!("[1{w}2]"),
        ];
        texts.iter().for_each(|t| value(t));
        let keys = [
            format!("{w}a{w}.{w}\"b\"{w}"),
            format!("{w}.{w}"),
            format!("a.{w}"),
        ];
        keys.iter().for_each(|t| key(t));
        let white = WHITE.contains(w);
        let read = ask::value(texts[5].as_bytes()).expect("asked");
        assert_eq!(read.is_ok(), white, "{w:?}");
    }
}

// Long ones, so that every place in the rooms is met.
#[test]
fn long_values() {
    let long = "é\\n漢a".repeat(3_600);
    value(&format!("\"{long}\""));
    value(&format!("[\"{long}\", 1, [\"{long}"));
    value(&format!("[\"a\", \"{long}\", [\"b\"], \"\"]"));
    value(&wide("\"four\\n\"", 2_040, "\"end\""));
    string(&format!("{long}\" {long}"));
    string(&format!("{long}\\q{long}"));
    key(&format!("{long}.\"{long}\""));
    int(&format!("0x{}1", "0_".repeat(16_000)));
}
