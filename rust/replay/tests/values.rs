//! Integers, strings, keys and values against the definitions alone; these tests need no original.
use port::text::TEXT_MAX;
use port::value::{self, SLOT, STORE_MIN, Slot, TREE_MIN, VALUES_MAX};
use replay::generators::random::{Rng, turns};
use replay::generators::value as random;
use replay::harness::ask::value as ask;
use replay::model::answer::value::{Answer, Bytes, Read, Value};
use replay::model::value as model;

fn reads(text: &str) -> Read {
    ask::value(text.as_bytes()).unwrap_or_else(|e| panic!("{text:?}: {e}"))
}

fn refuses(text: &str, number: u32) {
    let shown: String = text.chars().take(60).collect();
    assert_eq!(reads(text), Err(number), "{} bytes, {shown}", text.len());
}

fn makes(text: &str, count: usize) {
    let shown: String = text.chars().take(60).collect();
    let got = reads(text).unwrap_or_else(|n| panic!("{shown}: {n}"));
    assert_eq!(got.lay().1.len(), count, "{shown}");
}

// Text and integer; None stands for 12.
const INTEGERS: [(&str, Option<i64>); 34] = [
    ("0x-5", Some(-5)),
    ("0x+5", Some(5)),
    ("+5", Some(5)),
    ("-0", Some(0)),
    ("-0x5", None),
    ("0_x10", Some(16)),
    ("0__x1_0", Some(16)),
    ("_0x_f_", Some(15)),
    ("_-_5", Some(-5)),
    ("0X1F", Some(31)),
    ("0xfF", Some(255)),
    ("0x7fffffffffffffff", Some(i64::MAX)),
    ("0x8000000000000000", None),
    ("0x-8000000000000000", Some(i64::MIN)),
    ("0x-8000000000000001", None),
    ("9223372036854775807", Some(i64::MAX)),
    ("9223372036854775808", None),
    ("-9223372036854775808", Some(i64::MIN)),
    ("-9223372036854775809", None),
    ("00000000000000000000000000000000000001", Some(1)),
    ("0x00000000000000000000000000000000000f", Some(15)),
    ("18446744073709551616", None),
    ("0x10000000000000000", None),
    ("", None),
    ("_", None),
    ("0x", None),
    ("-", None),
    ("- 5", None),
    ("--5", None),
    ("0b1", None),
    ("1.5", None),
    (" 1", None),
    ("0x0x1", None),
    ("１", None),
];

#[test]
fn integers() {
    for (text, want) in INTEGERS {
        let got = ask::int(text.as_bytes()).expect(text);
        assert_eq!(got, want.ok_or(12), "{text:?}");
    }
}

// What follows the opening quote; bytes used and decoded, or the refusal and its place.
type Decoding = (&'static str, Result<(usize, &'static str), (u32, usize)>);
const STRINGS: [Decoding; 16] = [
    ("\"", Ok((1, ""))),
    ("a\" b", Ok((2, "a"))),
    ("a\"b\"", Ok((2, "a"))),
    ("\\n\\t\\r\\\"\\\\\"", Ok((11, "\n\t\r\"\\"))),
    ("\n\0\"", Ok((3, "\n\0"))),
    ("漢😀\"", Ok((8, "漢😀"))),
    ("\\q", Err((8, 0))),
    ("ab\\q\"", Err((8, 2))),
    ("漢\\\\\\é\"", Err((8, 5))),
    ("a\\\n\"", Err((8, 1))),
    ("\\N\"", Err((8, 0))),
    ("\\u0041\"", Err((8, 0))),
    ("", Err((9, 0))),
    ("a", Err((9, 0))),
    ("a\\", Err((9, 0))),
    ("a\\\"", Err((9, 0))),
];

#[test]
fn strings() {
    for (text, want) in STRINGS {
        let got = ask::string(text.as_bytes()).unwrap_or_else(|e| panic!("{text:?}: {e}"));
        let want = want.map(|(used, decoded)| (used, Bytes(decoded.into())));
        assert_eq!(got, want, "{text:?}");
    }
}

type Splitting = (&'static str, Result<&'static [&'static str], u32>);
const KEYS: [Splitting; 34] = [
    ("a", Ok(&["a"])),
    ("a.b", Ok(&["a", "b"])),
    (" a\t. \u{3000}b\u{A0}", Ok(&["a", "b"])),
    ("\"a\" . b", Ok(&["a", "b"])),
    ("a b.c", Ok(&["a b", "c"])),
    ("\"a\"b\"c\"", Ok(&["a"])),
    ("\"a\" \".b\"", Ok(&["a", "b\""])),
    ("\" \"", Ok(&[" "])),
    ("\"\\n\"", Ok(&["\n"])),
    ("a\"b", Ok(&["a\"b"])),
    ("[[a]]", Ok(&["[[a]]"])),
    ("\u{200B}", Ok(&["\u{200B}"])),
    ("é.漢.😀", Ok(&["é", "漢", "😀"])),
    ("'a.b'", Ok(&["'a", "b'"])),
    ("", Err(7)),
    (" ", Err(7)),
    ("\u{A0}", Err(7)),
    (".", Err(7)),
    (".a", Err(7)),
    ("a.", Err(7)),
    ("a..b", Err(7)),
    ("\"\"", Err(7)),
    ("\"\"a\"", Err(7)),
    ("\"a\"b", Err(7)),
    ("\"a\" .\"b\"c", Err(7)),
    ("\"\\q\"b", Err(8)),
    ("\"\\q", Err(8)),
    ("\"a.b\"", Err(9)),
    ("\"", Err(9)),
    ("a\".\"b", Err(9)),
    ("\"a\\\".b\"", Err(9)),
    ("\"a\\.b\"", Err(9)),
    ("\"a\\\"", Err(9)),
    ("a..\"\\q\"", Err(7)),
];

fn key(text: &str) -> Result<Vec<Bytes>, u32> {
    ask::key(text.as_bytes()).unwrap_or_else(|e| panic!("{text:?}: {e}"))
}

#[test]
fn keys() {
    for (text, want) in KEYS {
        let want = want.map(|all| all.iter().map(|&s| Bytes(s.into())).collect());
        assert_eq!(key(text), want, "{text:?}");
    }
}

// From left to right, and the 17th segment unread.
#[test]
fn segments_around_the_limit() {
    for count in 1..=20 {
        let all = vec!["ab"; count].join(".");
        let want = if count <= 16 {
            Ok(vec![Bytes(b"ab".into()); count])
        } else {
            Err(15)
        };
        assert_eq!(key(&all), want, "{count} segments");
        for (bad, number) in [("", 7), ("\"\\q\"", 8), ("\"x", 9), ("\"x\"y", 7)] {
            let last = format!("{all}.{bad}");
            assert_eq!(
                key(&last),
                Err(if count < 16 { number } else { 15 }),
                "{last}"
            );
            assert_eq!(
                key(&format!("{bad}.{all}")),
                Err(number),
                "{bad} then {all}"
            );
        }
    }
    let long = format!("{}.b", "a".repeat(TEXT_MAX - 2));
    assert_eq!(key(&long).map(|k| k[0].0.len()), Ok(TEXT_MAX - 2));
}

// Text and how many values it makes, or the refusal.
const VALUES: [(&str, Result<usize, u32>); 46] = [
    ("1", Ok(1)),
    (" \u{3000}1\u{A0}\n", Ok(1)),
    ("true", Ok(1)),
    ("\tfalse\u{85}", Ok(1)),
    ("\"\"", Ok(1)),
    ("\"a\" \u{2003}", Ok(1)),
    ("[]", Ok(1)),
    ("[ , ]", Ok(1)),
    ("[\u{A0}]", Ok(1)),
    ("[1,,2]", Ok(3)),
    ("[1,2,]", Ok(3)),
    ("[,,1]", Ok(2)),
    ("[[],[[]],1]", Ok(5)),
    ("[\"]\",\"[\",\",\",\"\\\",\"]", Ok(5)),
    ("[\"x\", [\"y\"], \"z\"]", Ok(5)),
    ("[1\u{3000},\u{A0}2]", Ok(3)),
    ("[\n1,\n\n2\n]", Ok(3)),
    ("\"\\q\"", Err(8)),
    ("[1,\"\\q\"]", Err(8)),
    ("\"", Err(9)),
    ("\"a", Err(9)),
    ("\"a]", Err(9)),
    ("[1,\"x]", Err(9)),
    ("\"a\" b", Err(10)),
    ("\"\"\"x\"\"\"", Err(10)),
    ("[\"x\"], [\"y\"]", Err(10)),
    ("\"a\"\u{200B}", Err(10)),
    ("[", Err(11)),
    ("[1", Err(11)),
    ("[1] 2", Err(11)),
    ("[[]", Err(11)),
    ("[1,[2]", Err(11)),
    ("[[]],]", Err(11)),
    ("[[1]], [[2]", Err(11)),
    ("[1]\u{FEFF}", Err(11)),
    ("", Err(12)),
    (" ", Err(12)),
    ("]", Err(12)),
    ("[1] [2]", Err(12)),
    ("[] []", Err(12)),
    ("'x'", Err(12)),
    ("TRUE", Err(12)),
    ("tr_ue", Err(12)),
    ("[x,\"\\q\"]", Err(12)),
    ("[1 2]", Err(12)),
    ("1,2", Err(12)),
];

#[test]
fn values() {
    for (text, want) in VALUES {
        match want {
            Ok(count) => makes(text, count),
            Err(number) => refuses(text, number),
        }
    }
}

fn nested(depth: usize, inner: &str) -> String {
    format!("{}{inner}{}", "[".repeat(depth), "]".repeat(depth))
}

#[test]
fn arrays_around_the_limit() {
    for depth in 1..=16 {
        makes(&nested(depth, ""), depth);
        makes(&nested(depth, "1"), depth + 1);
    }
    for depth in 1..=15 {
        makes(&nested(depth, "1,[],\"[\""), depth + 3);
    }
    for depth in [17, 18, 19, 100, 1_000, 16_000, 16_384] {
        refuses(&nested(depth, ""), 14);
    }
    // 14 goes before 11, and what stands before it first
    refuses(&nested(16, "[1"), 14);
    refuses(&nested(16, "x,[1"), 12);
    refuses(&nested(16, "[1,x"), 14);
    refuses(&nested(15, "[1"), 11);
    refuses(&nested(1, &format!("{},x", nested(16, ""))), 14);
    makes(&nested(1, &vec![nested(15, ""); 100].join(",")), 1_501);
    refuses(&"[".repeat(17), 11);
    refuses(&"[".repeat(TEXT_MAX), 11);
}

// `text` where that many values are made already, the array around it being one.
fn after(made: usize, text: &str) -> String {
    format!("[{}{text}]", "1,".repeat(made - 1))
}

#[test]
fn values_around_the_limit() {
    for item in ["1", "true", "\"ab\"", "[]"] {
        for made in [2_045, 2_046, 2_047] {
            makes(&after(made, item), made + 1);
        }
        for made in [2_048, 2_049, 3_000] {
            refuses(&after(made, item), 16);
        }
    }
    let full = |text: &str| after(VALUES_MAX, text);
    let told = [
        ("x", 12),
        ("\"x\" y", 10),
        ("[1", 11),
        ("\"\\q\"", 8),
        ("\"x", 9),
        ("[x]", 16),
    ];
    for (text, number) in told {
        refuses(&full(text), number);
    }
    makes(&full(" , \u{3000},"), VALUES_MAX);
    refuses(&full(&nested(17, "")), 16);
    refuses(&full("1,x"), 16);
    refuses(&after(2_047, "[1]"), 16);
    refuses(&after(2_047, "[x]"), 12);
    // sixteen arrays and 2,032 integers
    let ones = "1,".repeat(2_032);
    makes(&nested(16, &ones), VALUES_MAX);
    for (text, number) in [("1", 16), ("[1", 14), ("[]", 14), ("x", 12)] {
        refuses(&nested(16, &format!("{ones}{text}")), number);
    }
}

#[test]
fn lengths_around_the_limit() {
    for length in [TEXT_MAX - 1, TEXT_MAX] {
        let string = format!("\"{}\"", "a".repeat(length - 2));
        let held = Value::Str(Bytes(vec![b'a'; length - 2]));
        assert_eq!(reads(&string), Ok(held));
        makes(&format!("[1]{}", " ".repeat(length - 3)), 2);
        makes(&format!("{}7", "0".repeat(length - 1)), 1);
        refuses(&"x".repeat(length), 12);
    }
    for text in ["a", " ", "[", "\"", "\u{3000}"] {
        refuses(&text.repeat(TEXT_MAX + 1), 1);
        refuses(&text.repeat(TEXT_MAX + 1)[..TEXT_MAX / 3 * 3 + 3], 1);
    }
}

#[test]
fn lent_rooms() {
    let (long, short) = (vec![b'1'; TEXT_MAX + 1], b"[1, \"ab\"]".as_slice());
    let asks = |text: &[u8], store, tree| ask::value_in(text, store, tree).expect("asked");
    let small = [
        (0, 0),
        (STORE_MIN - 1, TREE_MIN),
        (STORE_MIN, TREE_MIN - 1),
        (STORE_MIN, SLOT),
    ];
    for (store, tree) in small {
        for text in [b"".as_slice(), b"x", b"1", b"\xFF", short, &long] {
            assert_eq!(asks(text, store, tree), Err(17), "rooms {store}, {tree}");
        }
    }
    let held = reads("[1, \"ab\"]");
    for (store, tree) in [
        (STORE_MIN + 1, TREE_MIN),
        (STORE_MIN, TREE_MIN + 1),
        (70_000, 99_999),
    ] {
        assert_eq!(asks(short, store, tree), held, "rooms {store}, {tree}");
        assert_eq!(asks(b"[1, x]", store, tree), Err(12));
        assert_eq!(asks(&long, store, tree), Err(1));
        let full = after(VALUES_MAX + 1, "");
        assert_eq!(
            asks(full.as_bytes(), store, tree),
            Err(16),
            "however much is lent"
        );
    }
}

#[test]
fn slots_of_any_room() {
    let none = Slot {
        kind: 0,
        parent: 0,
        key: 0,
        len: 0,
        data: 0,
    };
    let tree = vec![0xFF; 100 * SLOT];
    for room in [0, 1, SLOT - 1, SLOT, SLOT + 1, 2 * SLOT, 100 * SLOT] {
        for n in [
            0,
            1,
            2,
            99,
            100,
            VALUES_MAX,
            usize::MAX / SLOT,
            usize::MAX / 2,
            usize::MAX,
        ] {
            let got = value::slot(&tree[..room], n);
            assert_eq!(got == none, n >= room / SLOT, "value {n} of {room} bytes");
        }
    }
}

fn modelled(s: &[u8]) -> Answer {
    Answer {
        int: model::int(s),
        string: model::string(s),
        key: model::key(s),
        value: model::value(s),
    }
}

#[test]
fn random_bytes() {
    let mut r = Rng::new(3);
    for _ in 0..turns(50_000) {
        let s = random::bytes(&mut r);
        let shown = s.escape_ascii();
        let got = ask::ask(&s).unwrap_or_else(|e| panic!("{shown}: {e}"));
        if let Some(difference) = got.difference(&modelled(&s)) {
            panic!("{shown}: port against definition, {difference}");
        }
    }
}
