//! Joined lines, values and whole texts.
use crate::texts::{EXAMPLES, array, example, headers, integers, lists, nested, preset};
use crate::timing::{Times, measured};
use differ::document::original;
use oracle::toml_lite::{self, Value, probe as rust};
use port::document;
use port::text::{SCRATCH_MIN, TEXT_MAX};
use port::value::{self, STORE_MIN, TREE_MIN};
use replay::harness::ask::text::counted;
use std::hint::black_box;

const HEAD: &str = "\
| text | bytes | physical lines | joined lines | runs | port | original | port / original |
|---|---|---|---|---|---|---|---|";
const NOTE: &str = "
Medians; both sides take turns in one run. The port's time is `preset_text_lines` and a walk by `preset_text_next`:
it is handed bytes, checks that they are UTF-8, zeroes its scratch of 32769 bytes and lays the text
into it. The original's time is `logical_lines`: it is handed a `&str`, checked before, and allocates.
";

const VALUES_HEAD: &str = "\
| value | bytes | values made | runs | port | original | port / original |
|---|---|---|---|---|---|---|";
const VALUES_NOTE: &str = "
The port's time is `preset_value_read`, which zeroes its store of 32768 bytes and its tree room of 65536. The
original's time is `parse_value`, with the value it makes dropped again.";

const DOCUMENTS_HEAD: &str = "\
| whole text | bytes | physical lines | values made | runs | port | original | port / original |
|---|---|---|---|---|---|---|---|";
const DOCUMENTS_NOTE: &str = "
The port's time is `document_read`, which checks that the bytes are UTF-8 and zeroes its store of 32768
bytes and its tree room of 65536. The original's time is `parse`, with the tree it makes dropped again.";

pub fn texts() {
    println!("{HEAD}");
    row("preset of 2 KiB", &preset(2_048));
    row("preset of 32 KiB", &preset(TEXT_MAX));
    row("one array over many lines", &array(TEXT_MAX));
    println!("{NOTE}");
}

pub fn values() {
    println!("{VALUES_HEAD}");
    value_row("one string", &format!("\"{}\"", "profile\\n".repeat(3_555)));
    value_row("200 items, arrays 10 deep", &nested(20, 10));
    value_row("2,000 integers", &integers(2_000));
    println!("{VALUES_NOTE}");
}

pub fn documents() {
    println!("\n{DOCUMENTS_HEAD}");
    for name in EXAMPLES {
        document_row(name, &example(name));
    }
    document_row("preset of 32 KiB", &preset(TEXT_MAX));
    for (name, text) in headers().into_iter().chain(lists()) {
        document_row(name, &text);
    }
    println!("{DOCUMENTS_NOTE}");
}

fn row(name: &str, text: &str) {
    let (joined, times) = text_times(name, text);
    let (bytes, physical, times) = (text.len(), text.lines().count(), times.columns());
    println!("| {name} | {bytes} | {physical} | {joined} | {times} |");
}

/// How many joined lines there are, and both sides' times for them.
pub fn text_times(name: &str, text: &str) -> (usize, Times) {
    let mut scratch = vec![0; SCRATCH_MIN];
    let mut ours = || counted(black_box(text).as_bytes(), &mut scratch);
    let joined = ours();
    assert_eq!(joined, original_pass(text), "{name}: joined lines");
    (joined, measured(ours, || original_pass(text)))
}

fn value_row(name: &str, text: &str) {
    let (mut store, mut tree) = (vec![0; STORE_MIN], vec![0; TREE_MIN]);
    let mut ours = || {
        let got = value::read(black_box(text).as_bytes(), &mut store, &mut tree);
        assert_eq!(got.number, 0);
        got.made
    };
    let theirs = || rust::parse_value(black_box(text)).expect("a value");
    let made = ours();
    assert_eq!(made, count(&theirs()), "{name}: values made");
    let times = measured(ours, theirs).columns();
    println!("| {name} | {} | {made} | {times} |", text.len());
}

fn document_row(name: &str, text: &str) {
    let (made, times) = document_times(name, text);
    let (bytes, physical, times) = (text.len(), text.lines().count(), times.columns());
    println!("| {name} | {bytes} | {physical} | {made} | {times} |");
}

/// How many values are made, and both sides' times for the whole text.
pub fn document_times(name: &str, text: &str) -> (usize, Times) {
    let (mut store, mut tree) = (vec![0; STORE_MIN], vec![0; TREE_MIN]);
    let mut ours = || {
        let text = black_box(text).as_bytes();
        let got = document::read(text, &mut store, &mut tree);
        assert_eq!(got.number, 0, "{name}: {got:?}");
        got.made as usize
    };
    let made = ours();
    let times = measured(ours, || toml_lite::parse(black_box(text)).expect("a tree"));
    let root = document::rebuild(&tree, &store, made).expect("a tree");
    assert!(original::read(text) == Ok(root), "{name}: trees");
    (made, times)
}

fn count(v: &Value) -> usize {
    match v {
        Value::Array(items) => 1 + items.iter().map(count).sum::<usize>(),
        _ => 1,
    }
}

fn original_pass(text: &str) -> usize {
    let lines = rust::logical_lines(black_box(text)).expect("balanced");
    black_box(&lines).len()
}
