//! Text that others wrote, made fit for a terminal: what would move its cursor, hide or turn round letters is escaped.
use std::ffi::OsStr;

// Names and lines are cut after so many characters.
const LONGEST: usize = 160;

/// A text with its control and invisible characters as escapes, cut where it is long.
///
/// ```
/// assert_eq!(preset::shown::plain("a\u{1b}[2Jb \"c\""), "a\\u{1b}[2Jb \"c\"");
/// ```
pub fn plain(text: &str) -> String {
    cut(escaped(text))
}

/// The same of bytes, in which those that are not UTF-8 are `\xff`.
pub fn bytes(text: &[u8]) -> String {
    cut(raw(text))
}

/// A file's name, never cut: editors are to find the file by it.
///
/// ```
/// assert_eq!(preset::shown::file("a\nb.toml".as_ref()), "a\\nb.toml");
/// assert_eq!(preset::shown::file("".as_ref()), "\"\"");
/// ```
pub fn file(name: &OsStr) -> String {
    if name.is_empty() {
        "\"\"".into()
    } else {
        raw(name.as_encoded_bytes())
    }
}

fn raw(text: &[u8]) -> String {
    let mut out = String::new();
    for chunk in text.utf8_chunks() {
        out += &escaped(chunk.valid());
        let raw = chunk.invalid().iter();
        out.extend(raw.map(|byte| format!("\\x{byte:02x}")));
    }
    out
}

/// A name in quotes, in which quotes, backslashes and tabs are escaped too.
pub fn quoted(name: &str) -> String {
    let own = name.replace('\\', "\\\\").replace('"', "\\\"");
    format!("\"{}\"", cut(escaped(&own.replace('\t', "\\t"))))
}

fn escaped(text: &str) -> String {
    let mut out = String::new();
    for c in text.chars() {
        if c != '\t' && (c.is_control() || invisible(c)) {
            out.extend(c.escape_default());
        } else {
            out.push(c);
        }
    }
    out
}

// Separators of lines, marks of direction, joiners and tags: they have no shape of their own.
fn invisible(c: char) -> bool {
    matches!(c,
        '\u{ad}' | '\u{61c}' | '\u{180e}' | '\u{200b}'..='\u{200f}' | '\u{2028}'..='\u{202e}'
        | '\u{2060}'..='\u{206f}' | '\u{feff}' | '\u{fff9}'..='\u{fffb}' | '\u{e0000}'..='\u{e0fff}')
}

fn cut(text: String) -> String {
    match text.char_indices().nth(LONGEST) {
        Some((at, _)) => format!("{}…", &text[..at]),
        None => text,
    }
}

#[cfg(test)]
mod tests {
    use super::{LONGEST, bytes, file, plain, quoted};
    use std::ffi::OsStr;
    use std::os::unix::ffi::OsStrExt;

    #[test]
    fn what_a_terminal_obeys_is_escaped() {
        assert_eq!(plain("\u{1b}]0;x\u{7}"), "\\u{1b}]0;x\\u{7}");
        assert_eq!(plain("a\u{202e}b\u{9b}c\r"), "a\\u{202e}b\\u{9b}c\\r");
        assert_eq!(plain("na\tme = \"é\" \\"), "na\tme = \"é\" \\");
        assert_eq!(bytes(b"a\xff\xc3\xa9\xc3"), "a\\xffé\\xc3");
        assert_eq!(quoted("a\"b\\\n\t"), "\"a\\\"b\\\\\\n\\t\"");
    }

    #[test]
    fn what_is_long_is_cut() {
        let long = "é".repeat(LONGEST);
        assert_eq!(plain(&long), long);
        assert_eq!(plain(&format!("{long}é")), format!("{long}…"));
        assert_eq!(
            quoted(&"x".repeat(LONGEST + 9)).chars().count(),
            LONGEST + 3
        );
    }

    #[test]
    fn names_of_files_are_whole() {
        let long = "d/".repeat(LONGEST) + "x.toml";
        assert_eq!(file(long.as_ref()), long);
        assert_eq!(
            file(OsStr::from_bytes(b"\xe9t\x1b.toml")),
            "\\xe9t\\u{1b}.toml"
        );
    }
}
