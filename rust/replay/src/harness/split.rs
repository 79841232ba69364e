//! A listing's lines split into their fields again, texts by the library's own reader of strings.
use crate::model::listing::{Field, Line};
use port::value::string;

/// The fields of every line.
pub fn fields(lines: &[u8]) -> Result<Vec<Line>, String> {
    let each = lines.split_inclusive(|&b| b == b'\n');
    each.map(|line| split(line).map_err(|e| format!("{e}: \"{}\"", line.escape_ascii())))
        .collect()
}

fn split(line: &[u8]) -> Result<Line, String> {
    let mut rest = line.strip_suffix(b"\n").ok_or("the line has no end")?;
    let mut out = Vec::new();
    loop {
        let (field, after) = match rest.strip_prefix(b"\"") {
            Some(text) => quoted(text)?,
            None => bare(rest)?,
        };
        out.push(field);
        match after {
            [] => return Ok(out),
            [b' ', more @ ..] => rest = more,
            _ => return Err("no space stands between fields".into()),
        }
    }
}

// A text whose opening quote stands before it, and what is left of the line.
fn quoted(s: &[u8]) -> Result<(Field, &[u8]), String> {
    let mut out = vec![0; s.len()];
    let got = string(s, &mut out);
    if got.number != 0 {
        return Err(format!("refused {}", got.number));
    }
    out.truncate(got.written);
    let text = String::from_utf8(out).map_err(|e| e.to_string())?;
    Ok((Field::Text(text), &s[got.used..]))
}

// What has no quotes goes up to the next space.
fn bare(s: &[u8]) -> Result<(Field, &[u8]), String> {
    let end = s.iter().position(|&b| b == b' ').unwrap_or(s.len());
    let (own, after) = s.split_at(end);
    let word = str::from_utf8(own).map_err(|e| e.to_string())?;
    let field = match word.parse() {
        Ok(number) => Field::Number(number),
        Err(_) if word == "-" => Field::Absent,
        Err(_) if word.is_empty() => return Err("a field is missing".into()),
        Err(_) => Field::Word(word.into()),
    };
    Ok((field, after))
}
