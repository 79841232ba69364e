//! The form of the recorded answers: one text and its answer to a line.
//!
//! `TEXT ok MADE STORE TABLE` or `TEXT refused NUMBER LINE`. A text is one or more quoted parts,
//! each with `*` and how often it is repeated where it is, and `+` between them. A table is `{`,
//! its keys each with its value, and `}`; an array is `[`, its items and `]`.
use super::line::{Reader, quote};
use crate::model::answer::document::{Answer, Read, Table, Value};

/// A text in parts, each with how often it is repeated.
pub type Parts = Vec<(Vec<u8>, usize)>;

/// The whole text.
pub fn joined(parts: &Parts) -> Vec<u8> {
    parts.iter().flat_map(|(s, n)| s.repeat(*n)).collect()
}

/// One line of the file, without its end.
pub fn write(text: &Parts, answer: &Read) -> String {
    let text = parts(text);
    match answer {
        Ok(a) => {
            let (made, store, root) = (a.made, quoted(&a.store), table(&a.root));
            format!("{text} ok {made} {store} {root}")
        }
        Err((number, line)) => format!("{text} refused {number} {line}"),
    }
}

pub(crate) fn parts(text: &Parts) -> String {
    let parts = text.iter().map(|(part, count)| match count {
        1 => quoted(part),
        _ => format!("{}*{count}", quoted(part)),
    });
    parts.collect::<Vec<_>>().join("+")
}

/// Bytes that are no character are written `\x{..}`.
pub(crate) fn quoted(s: &[u8]) -> String {
    let chunks = s.utf8_chunks().map(|chunk| {
        let good = quote(chunk.valid());
        let bad = chunk.invalid().iter().map(|b| format!("\\x{{{b:x}}}"));
        good[1..good.len() - 1].to_string() + &bad.collect::<String>()
    });
    format!("\"{}\"", chunks.collect::<String>())
}

fn table(root: &Table) -> String {
    let entries = root
        .iter()
        .map(|(k, v)| format!("{} {} ", quoted(k), value(v)));
    format!("{{ {}}}", entries.collect::<String>())
}

fn value(v: &Value) -> String {
    match v {
        Value::Str(s) => quoted(s),
        Value::Int(i) => i.to_string(),
        Value::Bool(b) => b.to_string(),
        Value::Array(items) => {
            let items = items.iter().map(|v| value(v) + " ");
            format!("[ {}]", items.collect::<String>())
        }
        Value::Table(t) => table(t),
    }
}

/// The text and the answer of one line.
pub fn read(line: &str) -> Result<(Parts, Read), String> {
    let mut r = Reader(line);
    let text = r.parts()?;
    let answer = match r.word() {
        "ok" => Ok(Answer {
            made: r.number()?,
            store: r.bytes()?,
            root: r.table()?,
        }),
        "refused" => Err((r.number()?, r.number()?)),
        word => return Err(format!("{word:?} stands in place of ok or refused")),
    };
    Ok((text, answer))
}

impl Reader<'_> {
    pub(crate) fn parts(&mut self) -> Result<Parts, String> {
        let mut out = Parts::new();
        loop {
            let part = self.quoted_bytes()?;
            let (mark, rest) = self.0.split_at(self.0.len().min(1));
            let mut count = 1;
            if mark == "*" {
                let end = rest.find([' ', '+']).unwrap_or(rest.len());
                count = rest[..end].parse().map_err(|_| "no count")?;
                self.0 = &rest[end..];
            }
            out.push((part, count));
            match self.0.strip_prefix('+') {
                Some(rest) => self.0 = rest,
                None => break,
            }
        }
        self.space();
        Ok(out)
    }

    fn space(&mut self) {
        self.0 = self.0.strip_prefix(' ').unwrap_or(self.0);
    }

    pub(crate) fn bytes(&mut self) -> Result<Vec<u8>, String> {
        let bytes = self.quoted_bytes()?;
        self.space();
        Ok(bytes)
    }

    fn table(&mut self) -> Result<Table, String> {
        self.named("{")?;
        let mut out = Table::new();
        while !self.0.starts_with('}') {
            let key = self.bytes()?;
            out.insert(key, self.tree_value()?);
        }
        self.word();
        Ok(out)
    }

    fn tree_value(&mut self) -> Result<Value, String> {
        match self.0.as_bytes() {
            [b'"', ..] => return self.bytes().map(Value::Str),
            [b'{', ..] => return self.table().map(Value::Table),
            _ => {}
        }
        match self.word() {
            "true" => Ok(Value::Bool(true)),
            "false" => Ok(Value::Bool(false)),
            "[" => self.tree_items().map(Value::Array),
            word => match word.parse() {
                Ok(int) => Ok(Value::Int(int)),
                Err(_) => Err(format!("{word:?} is no value")),
            },
        }
    }

    fn tree_items(&mut self) -> Result<Vec<Value>, String> {
        let mut out = Vec::new();
        while !self.0.starts_with(']') {
            out.push(self.tree_value()?);
        }
        self.word();
        Ok(out)
    }
}
