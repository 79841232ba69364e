//! Random integers, strings, keys and values, about half of them damaged.
use super::random::Rng;

// What the readers tell apart, and characters of two to four bytes.
const MARKS: [&str; 26] = [
    "\"", "\\", "[", "]", ",", ".", "_", "-", "+", "0", "x", "X", "1", "n", "a", "\\\"", " ", "\n",
    "\u{A0}", "\u{3000}", "\u{200B}", "é", "漢", "😀", "'", "t",
];

// White_Space of one to three bytes, mostly none.
const SPACES: [&str; 12] = [
    "", "", "", "", "", " ", "\n", "\t", "\u{85}", "\u{A0}", "\u{2003}", "\u{3000}",
];

const DIGITS: [&str; 22] = [
    "0", "1", "2", "3", "4", "5", "6", "7", "8", "9", "a", "b", "c", "d", "e", "f", "A", "F", "_",
    "_", "__", "g",
];

// Signs and limits of 64 bits, some with an underscore.
const HEADS: [&str; 16] = [
    "",
    "",
    "",
    "-",
    "+",
    "0x",
    "0X",
    "0x-",
    "0x+",
    "-0x",
    "0_x",
    "_",
    "00000000000000000000",
    "0x0000000000000000",
    "92233720368547758",
    "-92233720368547758",
];

const INSIDE: [&str; 20] = [
    "a", "name", "é", "漢", "😀", " ", "\u{3000}", "\n", "\\n", "\\t", "\\r", "\\\"", "\\\\", "#",
    "[", "]", ",", ".", "=", "'",
];

const BARE: [&str; 14] = [
    "a", "name", "apps", "b-1", "é", "漢", "a b", "[a]", "1", "a\"b\"", "'a'", "\u{200B}", "x_y",
    "",
];

const GOOD: [&str; 8] = [
    "a",
    "b",
    "\"c\"",
    " d ",
    "\"\\n\"",
    "\u{3000}é",
    "\"f\"g\"h\"",
    "i j",
];

/// A text for any of the four readers.
pub fn text(r: &mut Rng) -> String {
    match r.below(6) {
        0 => int(r),
        1 => string(r),
        2 => key(r),
        _ => value(r),
    }
}

pub fn int(r: &mut Rng) -> String {
    let text = whole_int(r);
    damaged(r, text)
}

/// What follows an opening quote.
pub fn string(r: &mut Rng) -> String {
    let text = whole_string(r)[1..].to_string() + r.pick(&["", "", " x", "\"", "\\"]);
    damaged(r, text)
}

/// A few segments of all sorts, or good ones around the limit.
pub fn key(r: &mut Rng) -> String {
    let parts: Vec<_> = match r.below(10) {
        0 => (0..13 + r.below(7)).map(|_| r.pick(&GOOD).into()).collect(),
        _ => (0..1 + r.below(4)).map(|_| segment(r)).collect(),
    };
    let text = parts.join(".");
    damaged(r, text)
}

/// A value of all sorts, seldom one that goes around the limits.
pub fn value(r: &mut Rng) -> String {
    let text = match r.below(400) {
        0 => wide(r),
        1..=20 => deep(r),
        _ => whole_value(r, 0),
    };
    damaged(r, text)
}

fn whole_int(r: &mut Rng) -> String {
    let head = r.pick(&HEADS);
    let count = match r.below(4) {
        0 => 14 + r.below(8),
        _ => r.below(5),
    };
    // letters are digits in base 16 alone
    let kinds = if head.contains(['x', 'X']) { 21 } else { 10 };
    let digits = (0..count).map(|_| DIGITS[r.below(kinds)]);
    head.to_string() + &digits.collect::<String>()
}

fn whole_string(r: &mut Rng) -> String {
    let inside: String = (0..r.below(6)).map(|_| r.pick(&INSIDE)).collect();
    format!("\"{inside}\"")
}

fn segment(r: &mut Rng) -> String {
    let (before, after) = (r.pick(&SPACES), r.pick(&SPACES));
    let name = match r.below(4) {
        0 => whole_string(r).replace('.', ""),
        1 => whole_string(r).replace('.', "") + r.pick(&["", " ", "b"]) + &whole_string(r),
        _ => r.pick(&BARE).to_string(),
    };
    format!("{before}{name}{after}")
}

fn whole_value(r: &mut Rng, around: usize) -> String {
    let (before, after) = (r.pick(&SPACES), r.pick(&SPACES));
    let kind = if around < 5 { 10 } else { 6 };
    let inner = match r.below(kind) {
        0 | 1 => whole_string(r),
        2 | 3 => whole_int(r),
        4 => r.below(100).to_string(),
        5 => r.pick(&["true", "false", "true", "tr_ue", "TRUE"]).into(),
        _ => array(r, around),
    };
    format!("{before}{inner}{after}")
}

fn array(r: &mut Rng, around: usize) -> String {
    let items: Vec<_> = (0..r.below(5))
        .map(|_| whole_value(r, around + 1))
        .collect();
    let end = r.pick(&["", "", ",", " ,", ",,"]);
    format!("[{}{end}]", items.join(","))
}

// Around 16 arrays inside one another, with something beside the innermost.
fn deep(r: &mut Rng) -> String {
    let depth = 12 + r.below(8);
    let (open, inner) = (["[", "[ ", "[1,"][r.below(3)], whole_value(r, 4));
    let closed = depth - usize::from(r.below(8) == 0);
    format!("{}{inner}{}", open.repeat(depth), "]".repeat(closed))
}

// Around 2,048 values, and then one of all sorts.
fn wide(r: &mut Rng) -> String {
    let item = r.pick(&["1,", "true,", "\"a\",", "[],", "[1],", " , 1 ,"]);
    let values = if item == "[1]," { 2 } else { 1 };
    let count = (2_040 + r.below(12)) / values;
    format!("[{}{}]", item.repeat(count), whole_value(r, 4))
}

pub(super) fn damaged(r: &mut Rng, text: String) -> String {
    let mut all: Vec<char> = text.chars().collect();
    if r.below(2) == 0 {
        for _ in 0..1 + r.below(3) {
            damage(r, &mut all);
        }
    }
    all.into_iter().collect()
}

fn damage(r: &mut Rng, text: &mut Vec<char>) {
    let at = r.below(text.len() + 1);
    match r.below(6) {
        0 => text.truncate(at),
        1 | 2 if at < text.len() => {
            text.remove(at);
        }
        3 if at + 1 < text.len() => text.swap(at, at + 1),
        _ => {
            let mark: Vec<char> = r.pick(&MARKS).chars().collect();
            text.splice(at..at, mark);
        }
    }
}

/// Bytes that are mostly not UTF-8.
pub fn bytes(r: &mut Rng) -> Vec<u8> {
    let mut out = text(r).into_bytes();
    for _ in 0..1 + r.below(3) {
        let at = r.below(out.len() + 1);
        out.insert(at, 0x80 | r.draw() as u8);
    }
    out
}
