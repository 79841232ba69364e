//! From a tree back to a text.
use super::validate::spelled::{quoted, segment};
use crate::model::answer::document::{Table, Value};
use port::value::SEGMENTS_MAX;

/// A text that is read as this tree, which a text was read as.
pub fn text(root: &Table) -> String {
    let mut out = String::new();
    headed(&[], root, &mut out);
    out
}

// A table's own values, then what has a header: its tables, and those at the end of its arrays.
fn headed(path: &[String], table: &Table, out: &mut String) {
    // tables deeper than headers go were made by keys
    let by_keys = path.len() == SEGMENTS_MAX;
    assigned("", table, by_keys, out);
    for (key, value) in table.iter().filter(|_| !by_keys) {
        let path = [path, &[name(key)]].concat();
        let header = path.join(".");
        match value {
            Value::Table(table) => {
                *out += &format!("[{header}]\n");
                headed(&path, table, out);
            }
            Value::Array(items) => items.iter().for_each(|item| entry(&header, item, out)),
            _ => {}
        }
    }
}

// All that is in an entry was made by keys.
fn entry(header: &str, item: &Value, out: &mut String) {
    if let Value::Table(table) = item {
        *out += &format!("[[{header}]]\n");
        assigned("", table, true, out);
    }
}

// The lines of a table: all values but tables, which keys make or headers.
fn assigned(before: &str, table: &Table, by_keys: bool, out: &mut String) {
    for (key, value) in table {
        let key = format!("{before}{}", name(key));
        match value {
            Value::Table(inner) if by_keys => assigned(&format!("{key}."), inner, true, out),
            // its first header makes it
            Value::Array(items) if matches!(items.first(), Some(Value::Table(_))) => {}
            _ => out.extend(shown(value).map(|value| format!("{key} = {value}\n"))),
        }
    }
}

// Nothing of a table; of an array what is no table.
fn shown(value: &Value) -> Option<String> {
    match value {
        Value::Str(s) => Some(quoted(characters(s))),
        Value::Int(i) => Some(i.to_string()),
        Value::Bool(b) => Some(b.to_string()),
        Value::Array(items) => {
            let items: Vec<_> = items.iter().filter_map(shown).collect();
            Some(format!("[{}]", items.join(", ")))
        }
        Value::Table(_) => None,
    }
}

fn name(key: &[u8]) -> String {
    segment(characters(key))
}

fn characters(s: &[u8]) -> &str {
    str::from_utf8(s).expect("a text that was read is UTF-8")
}
