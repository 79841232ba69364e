//! All that reading a whole text leaves.
pub use port::document::{Table, Value};

/// An accepted text: its values made, the bytes of the store and the tree.
#[derive(Clone, Debug, Default, PartialEq, Eq)]
pub struct Answer {
    pub made: usize,
    pub store: Vec<u8>,
    pub root: Table,
}

/// What is read, or the refusal's number and the physical line it is told at.
pub type Read = Result<Answer, (u32, usize)>;

/// A tree in one line.
pub fn shown(root: &Table) -> String {
    let each = root
        .iter()
        .map(|(key, value)| format!("{}={}", key.escape_ascii(), one(value)));
    format!("{{{}}}", each.collect::<Vec<_>>().join(" "))
}

fn one(value: &Value) -> String {
    match value {
        Value::Str(s) => format!("\"{}\"", s.escape_ascii()),
        Value::Int(i) => i.to_string(),
        Value::Bool(b) => b.to_string(),
        Value::Array(items) => format!("{:?}", items.iter().map(one).collect::<Vec<_>>()),
        Value::Table(table) => shown(table),
    }
}
