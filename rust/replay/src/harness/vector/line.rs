//! Files of recorded answers and their lines, word by word.
use std::{fmt::Write, path::Path, path::PathBuf, str::FromStr};

/// A file of recorded answers.
pub fn file(name: &str) -> PathBuf {
    let here = Path::new(env!("CARGO_MANIFEST_DIR"));
    let root = here
        .ancestors()
        .nth(2)
        .expect("rust/replay has a root above");
    root.join("vectors").join(name)
}

/// Quotes a text in one line of printable ASCII.
pub fn quote(s: &str) -> String {
    let mut out = String::from("\"");
    for c in s.chars() {
        match c {
            '"' | '\\' => out.extend(['\\', c]),
            '\n' => out.push_str("\\n"),
            '\r' => out.push_str("\\r"),
            '\t' => out.push_str("\\t"),
            ' '..='~' => out.push(c),
            _ => write!(out, "\\u{{{:x}}}", c as u32).expect("a String takes all"),
        }
    }
    out + "\""
}

/// What is left of a line.
pub(crate) struct Reader<'a>(pub(crate) &'a str);

impl<'a> Reader<'a> {
    pub(crate) fn word(&mut self) -> &'a str {
        let (word, rest) = self.0.split_once(' ').unwrap_or((self.0, ""));
        self.0 = rest;
        word
    }

    pub(crate) fn named(&mut self, name: &str) -> Result<(), String> {
        match self.word() {
            word if word == name => Ok(()),
            word => Err(format!("{word:?} stands in place of {name}")),
        }
    }

    pub(crate) fn number<T: FromStr>(&mut self) -> Result<T, String> {
        let word = self.word();
        word.parse().map_err(|_| format!("{word:?} is no number"))
    }

    pub(crate) fn quoted(&mut self) -> Result<String, String> {
        let bytes = self.quoted_bytes()?;
        self.0 = self.0.strip_prefix(' ').unwrap_or(self.0);
        String::from_utf8(bytes).map_err(|e| e.to_string())
    }

    /// Up to the closing quote.
    pub(crate) fn quoted_bytes(&mut self) -> Result<Vec<u8>, String> {
        let mut rest = self.0.strip_prefix('"').ok_or("no quote")?;
        let mut out = Vec::new();
        loop {
            let c = rest.chars().next().ok_or("a quoted text does not end")?;
            rest = &rest[c.len_utf8()..];
            match c {
                '"' => break,
                '\\' if rest.starts_with('x') => out.push(code(&mut rest)? as u8),
                '\\' => out.extend(escaped(&mut rest)?.to_string().bytes()),
                _ => out.extend(c.to_string().bytes()),
            }
        }
        self.0 = rest;
        Ok(out)
    }
}

// The number in the braces of `x{..}` or `u{..}`.
fn code(rest: &mut &str) -> Result<u32, String> {
    let (digits, after) = rest[2..].split_once('}').ok_or("no end of an escape")?;
    *rest = after;
    u32::from_str_radix(digits, 16).map_err(|e| e.to_string())
}

// The character that an escape names, without its backslash.
fn escaped(rest: &mut &str) -> Result<char, String> {
    let c = rest.chars().next().ok_or("a backslash ends the line")?;
    if c == 'u' {
        let code = code(rest)?;
        return char::from_u32(code).ok_or(format!("\\u{{{code:x}}} is no character"));
    }
    *rest = &rest[c.len_utf8()..];
    match c {
        'n' => Ok('\n'),
        'r' => Ok('\r'),
        't' => Ok('\t'),
        '"' | '\\' => Ok(c),
        _ => Err(format!("unknown escape {c:?}")),
    }
}
