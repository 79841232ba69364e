//! The definitions on bytes, with 01's limits, which the original does not have.
use super::answer::value::{Bytes, Int, Key, Read, Str, Value};
use super::text::{step, trim};
use port::text::TEXT_MAX;
use port::value::{ARRAYS_MAX, SEGMENTS_MAX, VALUES_MAX};

/// Underscores go; `0x` or `0X` means base 16; a sign; digits within 64 bits. Else 12.
pub fn int(s: &[u8]) -> Int {
    let clean: Vec<u8> = s.iter().copied().filter(|&b| b != b'_').collect();
    let (rest, base) = match &clean[..] {
        [b'0', b'x' | b'X', rest @ ..] => (rest, 16),
        all => (all, 10),
    };
    let (sign, digits) = match rest {
        [b'-', digits @ ..] => (-1, digits),
        [b'+', digits @ ..] => (1, digits),
        digits => (1, digits),
    };
    if digits.is_empty() {
        return Err(12);
    }
    let mut sum = 0i128;
    for &b in digits {
        let digit = char::from(b).to_digit(base).ok_or(12u32)?;
        // beyond 64 bits it need not grow
        sum = (sum * i128::from(base) + i128::from(digit)).min(1 << 64);
    }
    i64::try_from(sign * sum).map_err(|_| 12)
}

/// What follows an opening quote, up to the closing one: 8 at its backslash, or 9.
pub fn string(s: &[u8]) -> Str {
    let (mut out, mut at) = (Vec::new(), 0);
    loop {
        match s[at..] {
            [] | [b'\\'] => return Err((9, 0)),
            [b'"', ..] => return Ok((at + 1, Bytes(out))),
            [b'\\', escape, ..] => {
                out.push(escaped(escape).ok_or((8, at))?);
                at += 2;
            }
            [plain, ..] => {
                out.push(plain);
                at += 1;
            }
        }
    }
}

fn escaped(b: u8) -> Option<u8> {
    match b {
        b'n' => Some(b'\n'),
        b't' => Some(b'\t'),
        b'r' => Some(b'\r'),
        b'"' | b'\\' => Some(b),
        _ => None,
    }
}

/// `s` without White_Space at both ends.
pub fn trimmed(s: &[u8]) -> &[u8] {
    let (from, end) = trim(s);
    &s[from..end]
}

/// Split at every dot; the segment over the limit is refused with 15 before it is looked at.
pub fn key(s: &[u8]) -> Key {
    let mut out = Vec::new();
    for part in s.split(|&b| b == b'.') {
        if out.len() == SEGMENTS_MAX {
            return Err(15);
        }
        out.push(segment(trimmed(part))?);
    }
    Ok(out)
}

fn segment(s: &[u8]) -> Result<Bytes, u32> {
    let decoded = match s {
        [b'"', rest @ ..] => {
            let (_, decoded) = string(rest).map_err(|(number, _)| number)?;
            if !rest.ends_with(b"\"") {
                return Err(7);
            }
            decoded
        }
        bare => Bytes(bare.to_vec()),
    };
    if decoded.0.is_empty() {
        Err(7)
    } else {
        Ok(decoded)
    }
}

/// One value: 1, or what its parts are refused with in reading order.
pub fn value(s: &[u8]) -> Read {
    if s.len() > TEXT_MAX {
        Err(1)
    } else {
        Reader { made: 0 }.value(s, 0)
    }
}

/// How many values were made so far.
pub struct Reader {
    pub made: usize,
}

impl Reader {
    /// Counts a value; 16 is the last thing that it can be refused with.
    pub fn make(&mut self) -> Result<(), u32> {
        self.made += 1;
        if self.made > VALUES_MAX {
            Err(16)
        } else {
            Ok(())
        }
    }

    /// A value with `around` arrays around it.
    pub fn value(&mut self, s: &[u8], around: usize) -> Read {
        let value = match trimmed(s) {
            [b'"', rest @ ..] => {
                let (used, decoded) = string(rest).map_err(|(number, _)| number)?;
                if !trimmed(&rest[used..]).is_empty() {
                    return Err(10);
                }
                Value::Str(decoded)
            }
            [b'[', rest @ ..] => return self.array(rest, around),
            b"true" => Value::Bool(true),
            b"false" => Value::Bool(false),
            other => Value::Int(int(other)?),
        };
        self.make()?;
        Ok(value)
    }

    // What follows the opening bracket.
    fn array(&mut self, rest: &[u8], around: usize) -> Read {
        if around == ARRAYS_MAX {
            return Err(14);
        }
        let inner = rest.strip_suffix(b"]").ok_or(11u32)?;
        self.make()?;
        let items = split(inner).into_iter().map(trimmed);
        let kept = items.filter(|item| !item.is_empty());
        let read = kept.map(|item| self.value(item, around + 1));
        read.collect::<Result<_, _>>().map(Value::Array)
    }
}

/// The parts between commas outside strings where as many brackets are closed as opened.
pub fn split(s: &[u8]) -> Vec<&[u8]> {
    let (mut out, mut from, mut state, mut depth) = (Vec::new(), 0, 0, 0i64);
    for (i, &b) in s.iter().enumerate() {
        match (state, b) {
            (0, b'[') => depth += 1,
            (0, b']') => depth -= 1,
            (0, b',') if depth == 0 => {
                out.push(&s[from..i]);
                from = i + 1;
            }
            _ => {}
        }
        state = step(state, b);
    }
    out.push(&s[from..]);
    out
}
