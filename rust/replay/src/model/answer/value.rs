//! All that the readers of integers, strings, keys and values say about one text.
use port::value::Slot;
use std::fmt::{Debug, Formatter};

/// Decoded bytes; the readers take every byte string, so they need not be UTF-8.
#[derive(Clone, PartialEq, Eq)]
pub struct Bytes(pub Vec<u8>);

impl Debug for Bytes {
    fn fmt(&self, f: &mut Formatter) -> std::fmt::Result {
        write!(f, "\"{}\"", self.0.escape_ascii())
    }
}

#[derive(Clone, Debug, PartialEq, Eq)]
pub enum Value {
    Str(Bytes),
    Int(i64),
    Bool(bool),
    Array(Vec<Value>),
}

/// An integer, or the number of the refusal.
pub type Int = Result<i64, u32>;
/// How many bytes a string takes with its closing quote, and what it says; or the number of the
/// refusal and its place.
pub type Str = Result<(usize, Bytes), (u32, usize)>;
/// A key's segments, or the number of the refusal.
pub type Key = Result<Vec<Bytes>, u32>;
/// A value, or the number of the refusal.
pub type Read = Result<Value, u32>;

#[derive(Clone, Debug, PartialEq, Eq)]
pub struct Answer {
    pub int: Int,
    /// The text taken for what follows an opening quote.
    pub string: Str,
    pub key: Key,
    pub value: Read,
}

impl Answer {
    /// Where two answers part: the reader with its two answers.
    pub fn difference(&self, other: &Self) -> Option<String> {
        parts("int", &self.int, &other.int)
            .or_else(|| parts("string", &self.string, &other.string))
            .or_else(|| parts("key", &self.key, &other.key))
            .or_else(|| parts("value", &self.value, &other.value))
    }
}

/// The two, where they are not the same.
pub fn parts<T: Debug + PartialEq>(name: &str, a: &T, b: &T) -> Option<String> {
    (a != b).then(|| format!("{name}: {a:?} against {b:?}"))
}

impl Value {
    /// What the rooms must hold: the strings in reading order, and a slot for each value made, an
    /// array before its items.
    pub fn lay(&self) -> (Vec<u8>, Vec<Slot>) {
        let (mut store, mut slots) = (Vec::new(), Vec::new());
        self.hang(0, &mut store, &mut slots);
        (store, slots)
    }

    fn hang(&self, parent: u32, store: &mut Vec<u8>, slots: &mut Vec<Slot>) {
        let own = slots.len() as u32 + 2;
        let (kind, data) = match self {
            Value::Str(s) => (1, store.len() as u64 + 65_536 * s.0.len() as u64),
            Value::Int(i) if *i < 0 => (6, i.unsigned_abs()),
            Value::Int(i) => (2, i.unsigned_abs()),
            Value::Bool(b) => (3, u64::from(*b)),
            Value::Array(_) => (4, 0),
        };
        slots.push(Slot {
            kind,
            parent,
            key: 0,
            len: 0,
            data,
        });
        match self {
            Value::Str(s) => store.extend(&s.0),
            Value::Array(items) => items.iter().for_each(|v| v.hang(own, store, slots)),
            _ => {}
        }
    }
}
