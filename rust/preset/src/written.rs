//! What stands in a line, and which field it gives a value to. The library is asked for both.
use crate::fields::{Want, fields};
use crate::lines;
use crate::refusal::Section;
use crate::shown::plain;
use crate::tree::Tree;
use port::text;
use port::value::{self, STORE_MIN, TREE_MIN};

/// Whether a place of a line is in a string is asked from the line's start on, and so of no more places than these.
pub(crate) const PLACES: usize = 64;

/// A joined line from a physical one on, without its comments and trimmed; none where its brackets or quotes are at
/// fault.
pub(crate) fn line(text: &[u8], line: usize) -> Option<String> {
    let rest = text.get(lines::before(text, line).len()..)?;
    let mut scratch = vec![0; text::SCRATCH_MIN];
    let used = text::lines(rest, &mut scratch).used;
    let found = text::next(scratch.get(..used)?, 0, 1);
    let own = scratch.get(found.from..found.end)?;
    let own = (found.kind == 1).then(|| String::from_utf8_lossy(own))?;
    Some(trimmed(&own).to_string())
}

/// A physical line without its comment, trimmed.
pub(crate) fn kept(line: &[u8]) -> String {
    let own = line.get(..text::kept(line)).unwrap_or(line);
    trimmed(&String::from_utf8_lossy(own)).to_string()
}

/// A text without white space at its ends.
pub(crate) fn trimmed(part: &str) -> &str {
    let span = text::trim(part.as_bytes());
    part.get(span.from..span.end).unwrap_or(part)
}

/// Whether what stands after this part of a line is in a string.
pub(crate) fn in_string(part: &str) -> bool {
    text::scan(part.as_bytes()).state != 0
}

/// A line's key and value, each trimmed; none without an `=` outside strings.
pub(crate) fn assigned(line: &str) -> Option<(&str, &str)> {
    let mut parts = line.match_indices('=').take(PLACES);
    let (at, _) = parts.find(|(at, _)| !in_string(&line[..*at]))?;
    Some((trimmed(&line[..at]), trimmed(&line[at + 1..])))
}

/// The value of a line, as it stands there.
pub(crate) fn value_in(text: &[u8], at: usize) -> Option<String> {
    let own = line(text, at)?;
    assigned(&own).map(|(_, value)| value.to_string())
}

/// A number as its line has it; in decimal where that is not the line's whole value.
pub(crate) fn number(value: Option<String>, number: i128) -> String {
    let own = |text: &String| i128::from(value::int(text.as_bytes()).value) == number;
    let written = value.filter(own).map(|text| plain(&text));
    written.unwrap_or_else(|| number.to_string())
}

/// Whether a text is a value, taken as it stands.
pub(crate) fn is_value(part: &str) -> bool {
    let (mut store, mut tree) = (vec![0; STORE_MIN], vec![0; TREE_MIN]);
    value::read(part.as_bytes(), &mut store, &mut tree).number == 0
}

/// A key with the section of the table that it stands in; none at the root and in tables that no record is read from.
pub(crate) struct Spot {
    pub section: Option<Section>,
    pub key: String,
    /// Whether the key is an application's.
    pub app: bool,
}

impl Spot {
    /// Where a key would stand that is written at the start of a physical line: the text before it is read with such a
    /// line after it, and the value that this line makes hangs somewhere.
    pub fn of(text: &[u8], line: usize, key: &str) -> Option<Spot> {
        let before = lines::before(text, line);
        let value = Tree::read(before)?.made();
        let tree = Tree::read(&[before, key.as_bytes(), b" = 0\n"].concat())?;
        let key = tree.key(value)?;
        let holds = |section: &Section| {
            let mut tables = tree.tables(*section).into_iter();
            tables.any(|table| tree.field(table, &key) == Some(value))
        };
        let apps = tree.whole(Section::Application);
        Some(Spot {
            section: Section::READ.into_iter().find(holds),
            app: apps.is_some_and(|apps| tree.field(apps, &key) == Some(value)),
            key,
        })
    }

    /// The field that it is, and what it has to be.
    pub fn field(&self) -> Option<(&'static str, Want)> {
        let own = fields(self.section?).iter();
        own.clone().find(|(key, _)| *key == self.key).copied()
    }
}

#[cfg(test)]
mod tests {
    use super::{Spot, assigned, in_string, is_value, kept, line};
    use crate::refusal::Section;

    const TEXT: &[u8] =
        b"x = 1\n[board] # c\nchip = \"a=b\" # d\n\n[[partition]]\n[apps.k]\nl = [ # e\n 1,\n]\n";

    #[test]
    fn lines_are_joined_and_have_no_comments() {
        assert_eq!(line(TEXT, 1).as_deref(), Some("x = 1"));
        assert_eq!(line(TEXT, 2).as_deref(), Some("[board]"));
        assert_eq!(line(TEXT, 7).as_deref(), Some("l = [ \n 1,\n]"));
        assert_eq!(kept(b" l = [ # e"), "l = [");
        assert_eq!(line(TEXT, 99), None);
        assert_eq!(line(b"a = [1", 1), None);
    }

    #[test]
    fn a_line_is_parted_at_the_first_equals_sign_outside_strings() {
        assert_eq!(assigned("a = b = c"), Some(("a", "b = c")));
        assert_eq!(assigned("\"a = b\" = c"), Some(("\"a = b\"", "c")));
        assert_eq!(assigned("="), Some(("", "")));
        assert_eq!(assigned("[board]"), None);
        assert!(in_string("a = \"x\\\"") && !in_string("a = \"x\""));
        assert!(is_value("[1, \"x\"]") && is_value("0x10") && !is_value("x"));
    }

    #[test]
    fn a_key_stands_in_the_table_of_its_header() {
        let at = |line, key| {
            let spot = Spot::of(TEXT, line, key)?;
            Some((spot.section, spot.key))
        };
        let chip = || "chip".to_string();
        assert_eq!(at(1, "chip"), Some((None, chip())));
        assert_eq!(at(1, "board.chip"), Some((Some(Section::Board), chip())));
        assert_eq!(at(3, "chip"), Some((Some(Section::Board), chip())));
        assert_eq!(at(3, "\"chip\""), Some((Some(Section::Board), chip())));
        assert_eq!(at(3, "x.chip"), Some((None, chip())));
        assert_eq!(at(6, "chip"), Some((Some(Section::Partition), chip())));
        assert_eq!(at(7, "chip"), Some((Some(Section::Application), chip())));
        assert_eq!(at(3, "\"chip"), None);
        assert_eq!(at(3, ""), None);
    }
}
