//! The definitions on bytes, for what the original cannot be handed: bytes that are not UTF-8.

/// White_Space of Unicode, every character.
pub const WHITE: &str = "\u{9}\u{A}\u{B}\u{C}\u{D}\u{20}\u{85}\u{A0}\u{1680}\u{2000}\u{2001}\
\u{2002}\u{2003}\u{2004}\u{2005}\u{2006}\u{2007}\u{2008}\u{2009}\u{200A}\u{2028}\u{2029}\u{202F}\
\u{205F}\u{3000}";

/// Takes encoded White_Space off both ends.
pub fn trim(s: &[u8]) -> (usize, usize) {
    let mut from = 0;
    while let Some(n) = white(s[from..].first(), |w| s[from..].starts_with(w)) {
        from += n;
    }
    let mut end = s.len();
    while let Some(n) = white(s[from..end].last(), |w| s[from..end].ends_with(w)) {
        end -= n;
    }
    (from, end)
}

// The length of the White_Space character whose bytes fit. None begins or ends in a visible
// character of ASCII.
fn white(outermost: Option<&u8>, fits: impl Fn(&[u8]) -> bool) -> Option<usize> {
    if outermost.is_some_and(u8::is_ascii_graphic) {
        return None;
    }
    let mut room = [0; 4];
    let mut found = WHITE
        .chars()
        .filter(|c| fits(c.encode_utf8(&mut room).as_bytes()));
    found.next().map(char::len_utf8)
}

/// The string state, a byte at a time: 0 outside, 1 inside, 2 inside after a backslash.
pub fn step(state: u8, b: u8) -> u8 {
    match (state, b) {
        (0, b'"') | (2, _) => 1,
        (1, b'\\') => 2,
        (1, b'"') => 0,
        _ => state,
    }
}

/// The bytes before the first `#` outside a string.
pub fn kept(s: &[u8]) -> usize {
    let mut state = 0;
    for (i, &b) in s.iter().enumerate() {
        if state == 0 && b == b'#' {
            return i;
        }
        state = step(state, b);
    }
    s.len()
}

/// The state after the last byte, and the brackets outside strings.
pub fn scan(s: &[u8]) -> (u8, usize, usize) {
    let (mut state, mut opens, mut closes) = (0, 0, 0);
    for &b in s {
        opens += usize::from(state == 0 && b == b'[');
        closes += usize::from(state == 0 && b == b']');
        state = step(state, b);
    }
    (state, opens, closes)
}
