//! Random presets, two thirds of them damaged.
use super::random::Rng;
use super::value as parts;
use port::text::TEXT_MAX;

// Few names, so that they meet again.
const NAMES: [&str; 16] = [
    "a",
    "a",
    "a",
    "b",
    "b",
    "c",
    "board",
    "partition",
    "apps",
    "name",
    "\"a\"",
    "\"q r\"",
    "é",
    "x-1",
    "\"b\\n\"",
    "\"a\"b\"c\"",
];

const SINGLES: [&str; 24] = [
    "1",
    "0",
    "-0",
    "0x40000",
    "0x4070_0000",
    "-17",
    "+5",
    "0x-5",
    "9223372036854775807",
    "-9223372036854775808",
    "true",
    "false",
    "\"\"",
    "\"boot\"",
    "\"boot;mtd\"",
    "\"pan tilt\"",
    "\"é\\n漢\\t😀\"",
    "\"\\\"\\\\\"",
    "\"x # y\"",
    "\"]\"",
    "\"a\nb\"",
    "\"x\\r\"",
    "\"[,]\"",
    "\"=\"",
];

const COMMAS: [&str; 8] = [
    ",",
    ", ",
    " ,",
    ",\n  ",
    ", # c ]\n",
    ",\r\n",
    ",,",
    ",\n\n\u{3000}",
];

const BLANKS: [&str; 7] = ["", " ", "\t", "\u{3000}", "# c", "  # ] \" [", "\r"];
const ENDS: [&str; 8] = [
    "\n",
    "\n",
    "\n",
    "\n",
    "\r\n",
    " \n",
    " # c\n",
    "\u{A0}# ]\"\r\n",
];
const EQUALS: [&str; 6] = ["=", " = ", " = ", " = ", "\t=", " =\u{2003}"];

// Lines that are read otherwise than they look, or not at all.
const ODD: [&str; 44] = [
    "x",
    "= 1",
    "= x",
    "a =",
    "a. = x",
    "a. = 1",
    "a = x",
    "a = \"x\" y",
    "a = \"\\q\"",
    "\"\\q\" = 1",
    "\"a.b\" = 1",
    "a\".\"b = 1",
    "\"a\"b = 1",
    "a\"=\" = 1",
    "a] = [1",
    "a = [1] 2",
    "a = [1] [2]",
    "a = [\"x\"], [\"y\"]",
    "][ = 1",
    "] = [[]",
    "] [",
    "[a]=[1]",
    "[\"a\"] = [\"b\"]",
    "[a = ]",
    "[[a]] = [[1]]",
    "[[a]] = [1]",
    "[a] = 1",
    "[a] x = 1",
    "[[a] ]",
    "[ [a]]",
    "[[[a]]]",
    "[a..b]",
    "[]",
    "[[]]",
    "[a.b\n]",
    "[a\nb]",
    "a = [\n\n# c\n]",
    "a = \"x\ny # z\n\"",
    "a = \"x\ny\" # z",
    "a = \"x\\\n\"",
    "\"a\" \".b\" = 1",
    "a = \"\"\"x\"\"\"",
    "\u{FEFF}a = 1",
    "a = [[1, [2]], [\"]\", \"[\"]]",
];

/// A preset, seldom one that goes around the limits; then mostly damaged.
pub fn text(r: &mut Rng) -> Vec<u8> {
    let text = match r.below(200) {
        0 => wide(r),
        1 => long(r),
        2..=4 => deep(r),
        5..=8 => segmented(r),
        _ => preset(r),
    };
    let mut text = text.into_bytes();
    if r.below(3) > 0 {
        for _ in 0..1 + r.below(3) {
            damage(r, &mut text);
        }
    }
    text
}

fn preset(r: &mut Rng) -> String {
    let count = match r.below(20) {
        0 => r.below(40),
        _ => r.below(10),
    };
    (0..count)
        .map(|_| line(r) + r.pick(&ENDS))
        .collect::<String>()
        + r.pick(&["", "", "", "a = 1"])
}

fn line(r: &mut Rng) -> String {
    match r.below(60) {
        0..=9 => format!("[{}]", path(r)),
        10..=19 => format!("[[{}]]", path(r)),
        20 | 21 => r.pick(&ODD).into(),
        22..=24 => r.pick(&BLANKS).into(),
        25 => parts::key(r) + r.pick(&EQUALS) + &parts::value(r),
        _ => path(r) + r.pick(&EQUALS) + &value(r, 0),
    }
}

fn path(r: &mut Rng) -> String {
    let count = [1, 1, 1, 1, 1, 2, 2, 2, 3, 4][r.below(10)];
    let dot = r.pick(&[".", ".", ".", " . "]);
    let names: Vec<_> = (0..count).map(|_| r.pick(&NAMES)).collect();
    names.join(dot)
}

fn value(r: &mut Rng, around: usize) -> String {
    if around > 3 || r.below(5) > 0 {
        return r.pick(&SINGLES).into();
    }
    let mut out = String::from(r.pick(&["[", "[ ", "[\n", "[ # c [\n"]));
    for _ in 0..r.below(4) {
        out += &value(r, around + 1);
        out += r.pick(&COMMAS);
    }
    out + r.pick(&["]", " ]", "\n]", "1]"])
}

// Around 16 arrays inside one another.
fn deep(r: &mut Rng) -> String {
    let depth = 14 + r.below(5);
    let (open, inner) = (["[", "[ ", "[1,", "[\n"][r.below(4)], value(r, 4));
    let (open, close) = (open.repeat(depth), "]".repeat(depth));
    preset(r) + &format!("{} = {open}{inner}{close}\n", path(r)) + &preset(r)
}

// Around 16 segments, one of them seldom a bad one.
fn segmented(r: &mut Rng) -> String {
    let count = 14 + r.below(5);
    let mut names: Vec<_> = (0..count).map(|_| r.pick(&NAMES[..15])).collect();
    if r.below(6) == 0 {
        let at = r.below(count);
        names[at] = r.pick(&["", "\"\\q\"", "\"", "\"a\"b"]);
    }
    let path = names.join(".");
    let line = match r.below(4) {
        0 => format!("[{path}]\n"),
        1 => format!("[[{path}]]\n"),
        2 => format!("{path} = {}\n", value(r, 0)),
        _ => format!("[{path}]\n{path} = {}\n", value(r, 0)),
    };
    preset(r) + &line + &preset(r)
}

// Around 2,048 values, and then a line of all sorts.
fn wide(r: &mut Rng) -> String {
    let many = 2_038 + r.below(12);
    let full = match r.below(6) {
        0 => (0..many / 2).map(|i| format!("k{i} = [{i}]\n")).collect(),
        1 => "[[a]]\n".repeat(many - 1),
        2 => "[[a]]\nb = 1\n".repeat(many / 2),
        3 => "a = 1\na.b = 2\n".repeat(many / 3),
        4 => format!("a = [{}]\n", "1,".repeat(many - 1)),
        _ => format!("a = [{}]\n", "\"x\", []\n,".repeat(many / 2)),
    };
    let some: String = (0..3).map(|_| line(r) + "\n").collect();
    full + &some + &preset(r)
}

const COMMENT: &str =
    "# .............................................................................\n";

// Around the longest text: a preset with something long in it.
fn long(r: &mut Rng) -> String {
    let (before, after) = (preset(r), preset(r));
    let length = TEXT_MAX - 5 + r.below(12);
    let around = before.len() + after.len() + "z = \"\"\n".len();
    // few lines, since the original's joining is quadratic
    let filling = r.pick(&["x", " ", "\\n", "é", "#", COMMENT]);
    let count = length.saturating_sub(around) / filling.len();
    let filling = filling.repeat(count);
    match r.below(3) {
        0 => format!("{before}z = \"{filling}\"\n{after}"),
        1 => format!("{before}#      {filling}\n{after}"),
        _ => format!("{before}{after}\n{filling}"),
    }
}

const MARKS: &[u8] = b"\"\"\\[[]]==..,,##\n\n\r 1a_-x";

pub(crate) fn damage(r: &mut Rng, text: &mut Vec<u8>) {
    let at = r.below(text.len() + 1);
    match r.below(24) {
        0 => text.truncate(at),
        1 => text.insert(at, 0x80 | r.draw() as u8),
        2..=7 => lines(r, text),
        8..=13 if at < text.len() => {
            text.remove(at);
        }
        14..=17 if at < text.len() => text[at] = MARKS[r.below(MARKS.len())],
        18 => {
            let end = text.len().min(at + r.below(20));
            let (part, to) = (text[at..end].to_vec(), r.below(text.len() + 1));
            text.splice(to..to, part);
        }
        _ => text.insert(at, MARKS[r.below(MARKS.len())]),
    }
}

// Two lines swapped, or one written twice or left out.
pub(crate) fn lines(r: &mut Rng, text: &mut Vec<u8>) {
    let mut all: Vec<_> = text.split_inclusive(|&b| b == b'\n').collect();
    if all.is_empty() {
        return;
    }
    let (a, b) = (r.below(all.len()), r.below(all.len()));
    match r.below(3) {
        0 => all.swap(a, b),
        1 => all.insert(b, all[a]),
        _ => {
            all.remove(a);
        }
    }
    *text = all.concat();
}
