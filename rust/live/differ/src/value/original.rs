//! The original's answers in numbers, found by calling nothing but the original.
//!
//! It has no limit on arrays inside one another: the callers keep deep texts away from its stack.
use oracle::toml_lite::{Value as Theirs, probe as rust};
use replay::model::answer::value::{Answer, Bytes, Int, Key, Read, Str, Value};

/// Everything the original's readers say about a text.
pub fn answer(text: &str) -> Answer {
    Answer {
        int: int(text),
        string: string(text),
        key: key(text),
        value: value(text),
    }
}

pub fn int(text: &str) -> Int {
    rust::parse_int(text).map_err(|e| number(&e))
}

/// `rest` follows an opening quote, which the original takes with it.
pub fn string(rest: &str) -> Str {
    let decoded = rust::unquote(&format!("\"{rest}"));
    match decoded {
        Ok((s, used)) => Ok((used - 1, Bytes(s.into()))),
        Err(e) if number(&e) == 8 => Err((8, backslash(rest))),
        Err(e) => Err((number(&e), 0)),
    }
}

// The original names no place: the shortest prefix with this fault ends in `\` and one character.
fn backslash(rest: &str) -> usize {
    let places: Vec<usize> = rest.char_indices().map(|(at, _)| at).collect();
    let sound = |&at: &usize| {
        let told = rust::unquote(&format!("\"{}", &rest[..at]));
        told.is_err_and(|e| number(&e) != 8)
    };
    // the last prefix without it lacks that character
    places[places.partition_point(sound) - 1] - 1
}

pub fn key(text: &str) -> Key {
    let segments = rust::split_key(text).map_err(|e| number(&e))?;
    Ok(segments.into_iter().map(|s| Bytes(s.into())).collect())
}

pub fn value(text: &str) -> Read {
    rust::parse_value(text).map(ours).map_err(|e| number(&e))
}

/// The array reader by itself; what it is handed starts with a bracket.
pub fn array(text: &str) -> Read {
    let items = rust::parse_array(text).map_err(|e| number(&e))?;
    Ok(Value::Array(items.into_iter().map(ours).collect()))
}

/// The items between an array's brackets as they stand, blank ones too.
pub fn items(inner: &str) -> Vec<String> {
    rust::split_top_level(inner, ',')
}

fn ours(v: Theirs) -> Value {
    match v {
        Theirs::Str(s) => Value::Str(Bytes(s.into())),
        Theirs::Int(i) => Value::Int(i),
        Theirs::Bool(b) => Value::Bool(b),
        Theirs::Array(items) => Value::Array(items.into_iter().map(ours).collect()),
        Theirs::Table(t) => panic!("a value read as the table {t:?}"),
    }
}

// Names inside messages are arbitrary text, so only their starts tell.
const MESSAGES: [(&str, u32); 7] = [
    ("invalid key: ", 7),
    ("invalid quoted key: ", 7),
    ("unsupported escape \\", 8),
    ("unterminated string: ", 9),
    ("trailing characters after string: ", 10),
    ("invalid array: ", 11),
    ("invalid integer: ", 12),
];

/// The number of a message.
pub fn number(error: &str) -> u32 {
    let known = MESSAGES.iter().find(|(start, _)| error.starts_with(start));
    known
        .unwrap_or_else(|| panic!("unforeseen message: {error}"))
        .1
}
