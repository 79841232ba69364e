//! What a field wants: in words, and with what is written there put right where that is certain to be meant.
use crate::fields::{Want, words};
use crate::near::near;
use crate::shown::{plain, quoted};
use crate::written::{is_value, trimmed};
use port::value;

/// What a value may be where nothing is known of its key.
pub(crate) const ANY: &str = "a value is text in double quotes, a whole number such as 4096 or 0x1000, true or false, \
                              or a list in brackets";

// What is taken for quotes; only two of the first make a string.
const QUOTES: [char; 14] = [
    '"', '\'', '`', '´', '“', '”', '„', '‟', '‘', '’', '‚', '«', '»', '＂',
];

/// What a field wants, and how what is written there would be it: `text in double quotes: "d13x"`.
pub(crate) fn said((key, want): (&str, Want), written: &str) -> String {
    // lines of other languages end so
    let word = trimmed(written.trim_end_matches([',', ';']));
    match want {
        Want::Text => text(key, word),
        Want::Integer => number(word),
        Want::Boolean => flag(word),
        Want::List => list(word),
    }
}

fn text(key: &str, word: &str) -> String {
    let choices = words(key);
    let meant = if choices.is_empty() {
        string(word)
    } else {
        near(unquoted(word), &choices).map(quoted)
    };
    let own = meant.unwrap_or_else(|| {
        let all: Vec<_> = choices.iter().map(|word| quoted(word)).collect();
        all.join(" or ")
    });
    if own.is_empty() {
        "text in double quotes".into()
    } else {
        format!("text in double quotes: {own}")
    }
}

/// The string that a text is certain to be meant to be: one already, in other quotes, or in none.
pub(crate) fn string(word: &str) -> Option<String> {
    // a list of one item is that item
    let item = word.strip_prefix('[').and_then(|w| w.strip_suffix(']'));
    let item = item.filter(|w| !w.contains(',')).map_or(word, trimmed);
    // a letter or a sign before a string is none of its own
    let at = item.find('"').unwrap_or(item.len());
    let (before, string) = item.split_at(at);
    if before.trim_end().chars().count() < 2 && is_value(string) {
        return Some(plain(string));
    }
    bare(item).map(quoted)
}

// What stands between quotes of whatever sort, or without any.
fn bare(word: &str) -> Option<&str> {
    let own = unquoted(word);
    let other = |c: char| c.is_control() || "\"\\{}[]=<>".contains(c);
    let plain = !own.is_empty() && !own.contains(other);
    plain.then_some(own)
}

/// A text without the quotes that it begins with, whatever sort they are of.
pub(crate) fn unquoted(word: &str) -> &str {
    if word.starts_with(QUOTES) {
        trimmed(word.trim_matches(QUOTES))
    } else {
        word
    }
}

fn number(word: &str) -> String {
    let word = unquoted(word);
    let digits = |c: char| c.is_ascii_digit() || c == '_';
    let large = word.len() > 10 && word.trim_start_matches("0x").chars().all(digits);
    match whole(word).map(plain).or_else(|| sized(word)) {
        Some(own) => format!("a number: {own}"),
        None if large => "a number from 0 to 4294967295".into(),
        None => "a number: 4096 or 0x1000".into(),
    }
}

// A number as it would be read, without what C writes after one.
fn whole(word: &str) -> Option<&str> {
    let own = word.trim_end_matches(['u', 'U', 'l', 'L']);
    let number = value::int(own.as_bytes());
    let fits = number.number == 0 && u32::try_from(number.value).is_ok();
    fits.then_some(own)
}

// A size with its unit, in bytes. In flash the units are powers of two.
fn sized(word: &str) -> Option<String> {
    let at = word.rfind(|c: char| !c.is_ascii_alphabetic())? + 1;
    let (count, unit) = word.split_at_checked(at)?;
    let own = whole(trimmed(count))?;
    let (shift, name) = match trimmed(unit).to_ascii_lowercase().as_str() {
        "b" | "byte" | "bytes" => return Some(plain(own)),
        "k" | "kb" | "kib" => (10, "KiB"),
        "m" | "mb" | "mib" => (20, "MiB"),
        _ => return None,
    };
    let bytes = value::int(own.as_bytes()).value << shift;
    Some(format!("{} {name} is {bytes} or {bytes:#X}", plain(own)))
}

fn flag(word: &str) -> String {
    let own = match unquoted(word).to_lowercase().as_str() {
        "true" | "yes" | "on" | "1" => ": true",
        "false" | "no" | "off" | "0" => ": false",
        _ => "",
    };
    format!("true or false{own}")
}

fn list(word: &str) -> String {
    let items = word.strip_prefix('[').and_then(|w| w.strip_suffix(']'));
    let own = match items {
        Some(items) => each(items),
        None if is_value(word) => None,
        None => string(word),
    };
    match own {
        Some(own) => format!("text in double quotes: {own}"),
        None => "\"a b\" or [\"a\", \"b\"]".into(),
    }
}

// A list whose items are put into quotes, where that is certain to be meant.
fn each(items: &str) -> Option<String> {
    let items = items
        .split(',')
        .map(trimmed)
        .filter(|item| !item.is_empty());
    let items: Option<Vec<_>> = items.map(string).collect();
    Some(plain(&format!("[{}]", items?.join(", "))))
}

#[cfg(test)]
mod tests {
    use super::said;
    use crate::fields::Want;

    #[test]
    fn text_is_put_into_quotes() {
        let said = |word| said(("name", Want::Text), word);
        let base = "text in double quotes";
        for word in [
            "x", "'x'", "“x”", "„x“", "`x`", "'''x'''", "'x", "x;", "[\"x\"]", "[x]", "r\"x\"",
            "' \"x\"",
        ] {
            assert_eq!(said(word), format!("{base}: \"x\""), "{word}");
        }
        assert_eq!(said("2.4"), format!("{base}: \"2.4\""));
        assert_eq!(said("True"), format!("{base}: \"True\""));
        assert_eq!(said("a b/c.d"), format!("{base}: \"a b/c.d\""));
        for word in ["", "{x}", "a\"b", "[x, y]", "a\nb", "\\x"] {
            assert_eq!(said(word), base, "{word}");
        }
    }

    #[test]
    fn words_are_chosen_from_what_there_is() {
        let said = |word| said(("chip", Want::Text), word);
        for word in ["d13x", "D13X", "'d13-x'", "d13"] {
            assert_eq!(said(word), "text in double quotes: \"d13x\"", "{word}");
        }
        let either = "text in double quotes: \"d13x\" or \"d21x\"";
        for word in ["True", "2.4", "{..}", ""] {
            assert_eq!(said(word), either, "{word}");
        }
    }

    #[test]
    fn numbers_are_written_out() {
        let said = |word| said(("size", Want::Integer), word);
        for word in ["", "x", "1.5", "2024-01-01", "0o17", "-5", "1e3", "4 KK"] {
            assert_eq!(said(word), "a number: 4096 or 0x1000", "{word}");
        }
        for word in ["0x1000", "'0x1000'", "\"0x1000\"", "0x1000;", "0x1000UL"] {
            assert_eq!(said(word), "a number: 0x1000", "{word}");
        }
        assert_eq!(said("256K"), "a number: 256 KiB is 262144 or 0x40000");
        assert_eq!(said("1 MiB"), "a number: 1 MiB is 1048576 or 0x100000");
        assert_eq!(said("4_096 bytes"), "a number: 4_096");
        assert_eq!(said("0x10K"), "a number: 0x10 KiB is 16384 or 0x4000");
        let large = "a number from 0 to 4294967295";
        assert_eq!(said("99999999999999999999"), large);
        assert_eq!(said("0x10000000000000000"), large);
    }

    #[test]
    fn flags_and_lists() {
        let flag = |word| said(("updater", Want::Boolean), word);
        assert_eq!(flag("True"), "true or false: true");
        assert_eq!(flag("'off'"), "true or false: false");
        assert_eq!(flag("maybe"), "true or false");
        let list = |word| said(("features", Want::List), word);
        assert_eq!(list("pan tilt"), "text in double quotes: \"pan tilt\"");
        let both = "text in double quotes: [\"pan\", \"tilt\"]";
        for word in ["[pan, tilt]", "['pan', \"tilt\"]", "[\n pan,\n tilt,\n]"] {
            assert_eq!(list(word), both, "{word}");
        }
        for word in ["", "true", "2", "[[pan, tilt]]", "{pan}"] {
            assert_eq!(list(word), "\"a b\" or [\"a\", \"b\"]", "{word}");
        }
    }
}
