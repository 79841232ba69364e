//! One text through each reader on both sides, and through the definitions, which have limits.
use super::original;
use replay::harness::ask::value as ask;
use replay::model::answer::value::{Read, Value, parts};
use replay::model::value as model;
use std::fmt::Debug;

/// All four readers.
pub fn all(text: &str) -> Result<(), String> {
    int(text)?;
    string(text)?;
    key(text)?;
    value(text)
}

pub fn int(text: &str) -> Result<(), String> {
    let s = text.as_bytes();
    let got = ask::int(s)?;
    same("int, port against original", &got, &original::int(text))?;
    same("int, port against definition", &got, &model::int(s))
}

/// The text follows an opening quote.
pub fn string(text: &str) -> Result<(), String> {
    let s = text.as_bytes();
    let (got, theirs) = (ask::string(s)?, original::string(text));
    same("string, port against original", &got, &theirs)?;
    same("string, port against definition", &got, &model::string(s))
}

/// The original has no 15.
pub fn key(text: &str) -> Result<(), String> {
    let s = text.as_bytes();
    let (got, defined) = (ask::key(s)?, model::key(s));
    if defined != Err(15) {
        same("key, port against original", &got, &original::key(text))?;
    }
    same("key, port against definition", &got, &defined)
}

/// The original has no 1, 14 and 16: it is not asked where the definition refuses with one of
/// them, so no text is too deep for its stack.
pub fn value(text: &str) -> Result<(), String> {
    let s = text.as_bytes();
    let (got, defined) = (ask::value(s)?, model::value(s));
    if !matches!(defined, Err(1 | 14 | 16)) {
        same("value, port against original", &got, &original::value(text))?;
        if text.trim().starts_with('[') {
            array(text.trim(), &got)?;
        }
    }
    same("value, port against definition", &got, &defined)
}

// So many items are asked about each by itself, which costs both rooms every time.
const ITEMS: usize = 64;

// The original's array reader, and its items each by itself through the port.
fn array(text: &str, got: &Read) -> Result<(), String> {
    same("array, port against original", got, &original::array(text))?;
    let Some(inner) = text[1..].strip_suffix(']') else {
        return same("array without its end", got, &Err(11));
    };
    let items = original::items(inner);
    if items.len() > ITEMS {
        return Ok(());
    }
    let mut read = Vec::new();
    for item in items.iter().filter(|item| !item.trim().is_empty()) {
        match ask::value(item.as_bytes())? {
            Ok(v) => read.push(v),
            Err(n) => return same("array against its items", got, &Err(n)),
        }
    }
    same("array against its items", got, &Ok(Value::Array(read)))
}

fn same<T: Debug + PartialEq>(name: &str, a: &T, b: &T) -> Result<(), String> {
    parts(name, a, b).map_or(Ok(()), Err)
}
