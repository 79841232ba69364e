//! The original's answer to a whole text: its tree, or the number of its message.
//!
//! It has no limit on arrays inside one another: the callers keep deep texts away from its stack.
use crate::value::original::number as value_number;
use oracle::toml_lite::{self, Value as Theirs};
use replay::harness::ask::document::Heard;
use replay::model::answer::document::{Read, Table, Value};
use replay::model::document as model;

pub fn read(text: &str) -> Heard {
    toml_lite::parse(text).map(table).map_err(|e| number(&e))
}

/// The original's tree or number where it has that number, and all else by the definitions.
pub fn answer(text: &[u8]) -> Read {
    let defined = model::read(text);
    if matches!(defined, Err((1 | 2 | 14..=16, _))) {
        return defined;
    }
    let theirs = read(std::str::from_utf8(text).expect("not refused with 2"));
    match (theirs, defined) {
        (Ok(root), Ok(mut answer)) => {
            answer.root = root;
            Ok(answer)
        }
        (Err(number), Err((_, line))) => Err((number, line)),
        (theirs, defined) => panic!("{}: {theirs:?}, {defined:?}", text.escape_ascii()),
    }
}

fn table(theirs: toml_lite::Table) -> Table {
    let entries = theirs.into_iter();
    entries.map(|(k, v)| (k.into_bytes(), ours(v))).collect()
}

fn ours(v: Theirs) -> Value {
    match v {
        Theirs::Str(s) => Value::Str(s.into_bytes()),
        Theirs::Int(i) => Value::Int(i),
        Theirs::Bool(b) => Value::Bool(b),
        Theirs::Array(items) => Value::Array(items.into_iter().map(ours).collect()),
        Theirs::Table(t) => Value::Table(table(t)),
    }
}

const MESSAGES: [(&str, u32); 4] = [
    ("unbalanced ']' in \"", 3),
    ("unbalanced value: \"", 4),
    ("invalid TOML line: \"", 5),
    ("missing key before '=': \"", 6),
];

/// 13 is told by what follows the name, which is arbitrary text.
pub fn number(error: &str) -> u32 {
    let known = MESSAGES.iter().find(|(start, _)| error.starts_with(start));
    match known {
        Some((_, number)) => *number,
        None if error.contains(" is not an array of tables (got ") => 13,
        None => value_number(error),
    }
}
