//! From text to tree by 01's rules on bytes, with its limits, its count and its store.
use super::answer::document::{Answer, Read, Table, Value};
use super::answer::value::Value as Inline;
use super::text::{kept, step};
use super::value::{Reader, key, trimmed};
use port::text::TEXT_MAX;

/// 1, then 2, then 3 and 4 over the whole text, then line by line.
pub fn read(text: &[u8]) -> Read {
    if text.len() > TEXT_MAX {
        return Err((1, 0));
    }
    if std::str::from_utf8(text).is_err() {
        return Err((2, 0));
    }
    let mut document = Document::default();
    for line in joined(text)? {
        let told = document.line(trimmed(&line.text));
        told.map_err(|number| (number, line.place))?;
    }
    Ok(Answer {
        made: document.count.made,
        root: document.grown(0),
        store: document.store,
    })
}

/// A joined line: where it starts, its text so far, and what stands open in it.
struct Line {
    place: usize,
    text: Vec<u8>,
    state: u8,
    depth: i64,
}

impl Line {
    fn add(&mut self, more: &[u8]) {
        for &b in more {
            match (self.state, b) {
                (0, b'[') => self.depth += 1,
                (0, b']') => self.depth -= 1,
                _ => {}
            }
            self.state = step(self.state, b);
        }
        self.text.extend(more);
    }
}

// Comments are cut from each physical line; lines are joined with LF while something is open.
fn joined(text: &[u8]) -> Result<Vec<Line>, (u32, usize)> {
    let (mut out, mut open) = (Vec::new(), None::<Line>);
    for (i, physical) in physical(text).into_iter().enumerate() {
        let code = &physical[..kept(physical)];
        let mut line = match open.take() {
            Some(mut line) => {
                line.add(b"\n");
                line
            }
            None if trimmed(code).is_empty() => continue,
            None => Line {
                place: i + 1,
                text: Vec::new(),
                state: 0,
                depth: 0,
            },
        };
        line.add(code);
        match (line.depth, line.state) {
            (..0, _) => return Err((3, line.place)),
            (0, 0) => out.push(line),
            _ => open = Some(line),
        }
    }
    match open {
        Some(line) => Err((4, line.place)),
        None => Ok(out),
    }
}

// Lines end at LF or CRLF; after the last end nothing is no line.
fn physical(text: &[u8]) -> Vec<&[u8]> {
    let pieces = text.split_inclusive(|&b| b == b'\n');
    let bare = |piece: &'_ [u8]| match piece {
        [line @ .., b'\r', b'\n'] | [line @ .., b'\n'] => line.len(),
        line => line.len(),
    };
    pieces.map(|piece| &piece[..bare(piece)]).collect()
}

// Tables are known by number, since a header's table takes assignments later on.
enum Held {
    Single(Value),
    Array(Vec<Held>),
    Table(usize),
}

type Entries = std::collections::BTreeMap<Vec<u8>, Held>;

/// The tables, the first being the root; where assignments go; what was stored and counted.
struct Document {
    tables: Vec<Entries>,
    current: usize,
    store: Vec<u8>,
    count: Reader,
}

impl Default for Document {
    fn default() -> Self {
        Document {
            tables: vec![Entries::new()],
            current: 0,
            store: Vec::new(),
            count: Reader { made: 0 },
        }
    }
}

impl Document {
    // `[[..]]` first, then `[..]` not starting `[[`, then an assignment.
    fn line(&mut self, s: &[u8]) -> Result<(), u32> {
        match s {
            [b'[', b'[', inner @ .., b']', b']'] => self.array_header(inner),
            [b'[', b'[', ..] => self.assignment(s),
            [b'[', inner @ .., b']'] => {
                let path = self.path(inner)?;
                self.current = self.walk(0, &path)?;
                Ok(())
            }
            _ => self.assignment(s),
        }
    }

    fn array_header(&mut self, inner: &[u8]) -> Result<(), u32> {
        let path = self.path(inner)?;
        let (last, parents) = path.split_last().expect("a key has a segment");
        let table = self.walk(0, parents)?;
        match self.tables[table].get(last) {
            Some(Held::Array(_)) => {}
            Some(_) => return Err(13),
            None => {
                self.count.make()?;
                self.tables[table].insert(last.clone(), Held::Array(Vec::new()));
            }
        }
        self.current = self.table()?;
        if let Some(Held::Array(items)) = self.tables[table].get_mut(last) {
            items.push(Held::Table(self.current));
        }
        Ok(())
    }

    // The value is read before the key is split.
    fn assignment(&mut self, s: &[u8]) -> Result<(), u32> {
        let at = equals(s).ok_or(5u32)?;
        let name = trimmed(&s[..at]);
        if name.is_empty() {
            return Err(6);
        }
        let value = self.count.value(&s[at + 1..], 0)?;
        self.store.extend(value.lay().0);
        let path = self.path(name)?;
        let (last, parents) = path.split_last().expect("a key has a segment");
        let table = self.walk(self.current, parents)?;
        self.tables[table].insert(last.clone(), held(value));
        Ok(())
    }

    // Segments are stored from left to right.
    fn path(&mut self, s: &[u8]) -> Result<Vec<Vec<u8>>, u32> {
        let segments: Vec<_> = key(s)?.into_iter().map(|b| b.0).collect();
        self.store.extend(segments.concat());
        Ok(segments)
    }

    // A new table is a value made.
    fn table(&mut self) -> Result<usize, u32> {
        self.count.make()?;
        self.tables.push(Entries::new());
        Ok(self.tables.len() - 1)
    }

    // Walks tables; whatever else is on the way, or nothing, gives way to an empty one.
    fn walk(&mut self, from: usize, path: &[Vec<u8>]) -> Result<usize, u32> {
        let mut at = from;
        for segment in path {
            at = match self.tables[at].get(segment) {
                Some(Held::Table(next)) => *next,
                _ => {
                    let new = self.table()?;
                    self.tables[at].insert(segment.clone(), Held::Table(new));
                    new
                }
            };
        }
        Ok(at)
    }

    fn grown(&self, table: usize) -> Table {
        let entries = self.tables[table].iter();
        entries.map(|(k, v)| (k.clone(), self.tree(v))).collect()
    }

    fn tree(&self, held: &Held) -> Value {
        match held {
            Held::Single(value) => value.clone(),
            Held::Array(items) => Value::Array(items.iter().map(|v| self.tree(v)).collect()),
            Held::Table(n) => Value::Table(self.grown(*n)),
        }
    }
}

// The first `=` outside a string.
fn equals(s: &[u8]) -> Option<usize> {
    let mut state = 0;
    s.iter().position(|&b| {
        let found = state == 0 && b == b'=';
        state = step(state, b);
        found
    })
}

// An array read as a value takes tables of `[[..]]` later on.
fn held(value: Inline) -> Held {
    match value {
        Inline::Str(s) => Held::Single(Value::Str(s.0)),
        Inline::Int(i) => Held::Single(Value::Int(i)),
        Inline::Bool(b) => Held::Single(Value::Bool(b)),
        Inline::Array(items) => Held::Array(items.into_iter().map(held).collect()),
    }
}
