//! The port against the definitions alone; these tests need no original.
use port::text::{self, SCRATCH_MIN, TEXT_MAX};
use replay::generators::random::{self, Rng};
use replay::harness::ask::text::{accepted, ask, refused};
use replay::harness::rooms::holds;
use replay::model::text as model;

// Asks with a scratch of that length, filled before, and looks through it afterwards.
fn lines(text: &[u8], room: usize) -> (text::Lines, Vec<u8>) {
    let mut scratch = vec![0xAA; room];
    let got = text::lines(text, &mut scratch);
    (got, scratch)
}

fn refuses(text: &[u8], room: usize, number: u32, place: usize) {
    let (got, scratch) = lines(text, room);
    let about = format!("{} bytes, room {room}", text.len());
    assert_eq!(got, refused(number, place), "{about}");
    holds(&scratch, b"").unwrap_or_else(|e| panic!("{about}: {e}"));
}

fn accepts(text: &[u8], room: usize, count: usize, laid: &[u8]) {
    let (got, scratch) = lines(text, room);
    let about = format!("{} bytes, room {room}", text.len());
    assert_eq!(got, accepted(count, laid.len()), "{about}");
    holds(&scratch, laid).unwrap_or_else(|e| panic!("{about}: {e}"));
}

fn valid(s: &[u8]) {
    assert_eq!(text::valid(s), std::str::from_utf8(s).is_ok(), "{s:02x?}");
}

// Refusal 2 exactly where the standard library finds no UTF-8.
fn second(s: &[u8]) {
    if std::str::from_utf8(s).is_err() {
        refuses(s, SCRATCH_MIN, 2, 0);
    } else {
        assert_ne!(lines(s, SCRATCH_MIN).0.number, 2, "{s:02x?}");
    }
}

#[test]
fn all_strings_of_one_and_two_bytes() {
    for a in 0..=255 {
        valid(&[a]);
        second(&[a]);
        for b in 0..=255 {
            valid(&[a, b]);
            second(&[a, b]);
        }
    }
}

// The bytes at which RFC 3629 changes its mind.
const EDGES: [u8; 28] = [
    0x00, 0x22, 0x7F, 0x80, 0x81, 0x8F, 0x90, 0x9F, 0xA0, 0xBF, 0xC0, 0xC1, 0xC2, 0xDF, 0xE0, 0xE1,
    0xEC, 0xED, 0xEE, 0xEF, 0xF0, 0xF1, 0xF3, 0xF4, 0xF5, 0xF7, 0xF8, 0xFF,
];

#[test]
fn edges_of_utf_8() {
    for a in EDGES {
        for b in EDGES {
            for c in EDGES {
                valid(&[a, b, c]);
                for d in EDGES {
                    valid(&[a, b, c, d]);
                }
            }
        }
    }
}

const BAD: [&[u8]; 15] = [
    b"\xED\xA0\x80",             // U+D800
    b"\xED\xBF\xBF",             // U+DFFF
    b"\xED\xA0\x80\xED\xB0\x80", // a pair of surrogates
    b"\xC0\x80",                 // U+0000 overlong
    b"\xC1\xBF",                 // U+007F overlong
    b"\xE0\x9F\xBF",             // U+07FF overlong
    b"\xF0\x8F\xBF\xBF",         // U+FFFF overlong
    b"\xF4\x90\x80\x80",         // U+110000
    b"\xF5\x80\x80\x80",
    b"\xF8\x88\x80\x80\x80",
    b"\xE2\x82", // cut short
    b"\xF0\x9F\x98",
    b"a = \"\xC3\"",
    b"\x80",
    b"]\n\xFF", // 2 goes before 3
];

const GOOD: [&str; 10] = [
    "\0",
    "\u{7F}",
    "\u{80}",
    "\u{7FF}",
    "\u{800}",
    "\u{D7FF}",
    "\u{E000}",
    "\u{FFFF}",
    "\u{10000}",
    "\u{10FFFF}",
];

#[test]
fn named_cases_of_utf_8() {
    for s in BAD {
        assert!(!text::valid(s), "{s:02x?}");
        refuses(s, SCRATCH_MIN, 2, 0);
    }
    for s in GOOD {
        assert!(text::valid(s.as_bytes()), "{s:?}");
        accepts(s.as_bytes(), SCRATCH_MIN, 1, format!("{s}\n").as_bytes());
    }
}

#[test]
fn random_bytes() {
    let mut r = Rng::new(2);
    for i in 0..100_000 {
        let s = random::bytes(&mut r);
        valid(&s);
        let (trim, scan) = (text::trim(&s), text::scan(&s));
        assert_eq!((trim.from, trim.end), model::trim(&s), "{s:02x?}");
        assert_eq!(text::kept(&s), model::kept(&s), "{s:02x?}");
        assert_eq!(
            (scan.state, scan.opens, scan.closes),
            model::scan(&s),
            "{s:02x?}"
        );
        // each costs a scratch zeroed and looked through
        if i % 10 == 0 {
            second(&s);
        }
    }
}

// Lines of seven bytes, with a comment on each third, and a last line that fills up.
fn filled(length: usize, end: &str) -> (Vec<u8>, usize, Vec<u8>) {
    let (mut text, mut laid, mut count) = (Vec::new(), Vec::new(), 0);
    while text.len() + 7 + end.len() < length {
        let line = if count % 3 == 0 {
            "a = #1\n"
        } else {
            "b = 12\n"
        };
        text.extend(line.bytes());
        laid.extend(
            line.trim_end()
                .split('#')
                .next()
                .unwrap()
                .bytes()
                .chain([b'\n']),
        );
        count += 1;
    }
    let last = "c".repeat(length - text.len() - end.len());
    text.extend(last.bytes().chain(end.bytes()));
    laid.extend(last.bytes().chain([b'\n']));
    (text, count + 1, laid)
}

#[test]
fn lengths_around_the_limit() {
    for length in [TEXT_MAX - 1, TEXT_MAX] {
        for end in ["", "\n", "\r\n"] {
            let (text, count, laid) = filled(length, end);
            assert_eq!(text.len(), length);
            accepts(&text, SCRATCH_MIN, count, &laid);
            let text = String::from_utf8(text).expect("ASCII");
            assert_eq!(ask(&text).expect("accepted").lines.len(), count);
        }
        let open = [b"x\n\n[".as_slice(), &vec![b'\n'; length - 4]].concat();
        refuses(&open, SCRATCH_MIN, 4, 3);
        let closed = [b"x\n\n".as_slice(), &vec![b' '; length - 4], b"]"].concat();
        refuses(&closed, SCRATCH_MIN, 3, 3);
        let cut = [vec![b'a'; length - 1].as_slice(), b"\xC3"].concat();
        refuses(&cut, SCRATCH_MIN, 2, 0);
        accepts(&vec![b'\n'; length], SCRATCH_MIN, 0, &vec![b'\n'; length]);
    }
    for text in ["a", "\n", "]", "\u{3000}"] {
        let text = text.repeat(TEXT_MAX + 1);
        refuses(&text.as_bytes()[..TEXT_MAX + 1], SCRATCH_MIN, 1, 0);
        refuses(text.as_bytes(), SCRATCH_MIN, 1, 0);
    }
    refuses(&vec![0xFF; TEXT_MAX + 1], SCRATCH_MIN, 1, 0);
}

#[test]
fn lent_scratch() {
    let long = vec![b'a'; TEXT_MAX + 1];
    for room in [0, 1, 100, TEXT_MAX - 1, TEXT_MAX] {
        for text in [b"".as_slice(), b"a", b"]", b"[", b"\xFF", &long] {
            refuses(text, room, 17, 0);
        }
    }
    for room in [SCRATCH_MIN, SCRATCH_MIN + 1, 40_000, 70_001] {
        accepts(b"", room, 0, b"");
        accepts(b"a # b\r\n\r\n[\n]", room, 2, b"a \n\n[\n]\n");
        refuses(b"a\n]", room, 3, 2);
        refuses(b"a\n\"", room, 4, 2);
        refuses(b"\xFF", room, 2, 0);
        refuses(&long, room, 1, 0);
    }
}

// Text, refusal number (0: accepted), its place or else the count of joined lines.
const RULES: [(&str, u32, usize); 24] = [
    ("", 0, 0),
    (" \t\n\u{3000}\r\n# c", 0, 0),
    ("x\n]", 3, 2),
    ("a = [\n]]", 3, 1),
    ("] [", 0, 1),
    ("] = [[]", 0, 1),
    ("][ = 1", 0, 1),
    ("]x\"", 3, 1),
    ("\n# c\n\na = [1,\n\n2", 4, 4),
    ("x\na = 1\n]", 3, 3),
    ("[\n]\n]", 3, 3),
    ("a = \"x\ny # z\n\"", 0, 1),
    ("a = \"x\ny\" # z", 0, 1),
    ("a = \"x\ny\" # z\"", 4, 1),
    ("a = \"x\n# y\"", 4, 1),
    ("a = \"x\\\n\"", 0, 1),
    ("a = \"x\\\n\\\n\"", 0, 1),
    ("a\rb\n", 0, 1),
    ("a\u{B}b\u{C}c\u{85}d\u{2028}e\u{2029}f", 0, 1),
    ("\u{FEFF}", 0, 1),
    ("\u{200B}\n\u{180E}\n\u{1F}", 0, 3),
    ("\"]\"\n\"[\"", 0, 2),
    ("\\\"\n[", 4, 1),
    ("a\nb\n[\n\n\n]\nc\n\"", 4, 8),
];

#[test]
fn rules_of_the_text_layer() {
    for (text, number, count) in RULES {
        let got = ask(text).unwrap_or_else(|e| panic!("{text:?}: {e}"));
        match got.refusal {
            None => assert_eq!((0, got.lines.len()), (number, count), "{text:?}"),
            Some(refusal) => assert_eq!(refusal, (number, count), "{text:?}"),
        }
    }
}
