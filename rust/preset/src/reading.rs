//! What the refusals of reading (1 to 16) leave open: what is there, and how it would be read.
use crate::fields::{Want, fields};
use crate::lines;
use crate::near::near;
use crate::refusal::{Refusal, Section};
use crate::shown::{plain, quoted};
use crate::tree::{Tree, roots};
use crate::wanted::{self, ANY, unquoted};
use crate::written::{self, PLACES, Spot, assigned, in_string, is_value, kept, trimmed};
use port::text::{self, TEXT_MAX, scan};
use port::value::{self, ARRAYS_MAX, SEGMENTS_MAX, STORE_MIN, VALUES_MAX};

const MARK: char = '\u{feff}';
const REMARK: &str = "a remark begins with `#`";
// What it begins with in other languages.
const REMARKS: [&str; 3] = ["//", "/*", "--"];

// Fields that hold the path of a file.
const PATHS: [&str; 3] = ["file", "pbp", "private"];

/// What is to be said of a refusal of the text.
pub(crate) fn of(text: &[u8], refusal: &Refusal) -> Option<String> {
    let place = refusal.place as usize;
    match refusal.number {
        1 => Some(format!("more than {TEXT_MAX} bytes")),
        2 => encoded(text),
        3 => At { text, place }.closed(),
        4 => At { text, place }.open(),
        _ => of_line(text, refusal.number, place, &written::line(text, place)?),
    }
}

fn of_line(text: &[u8], number: u32, place: usize, line: &str) -> Option<String> {
    let at = At { text, place };
    match number {
        5 => Some(at.neither(line)),
        6 => at.keyless(),
        7 => Some(unnamed(line)),
        8 => escape(line),
        9 => Some(dotted(line)),
        10 => at.after_string(line),
        11 => after_list(line),
        12 => at.no_value(line),
        13 => at.in_the_way(line),
        14 => Some(format!(
            "the most is {ARRAYS_MAX}, and no field takes a list of lists"
        )),
        15 => Some(format!(
            "the most is {SEGMENTS_MAX}, and no header needs more than two"
        )),
        16 => Some(format!(
            "the most is {VALUES_MAX}, and each item of a list is one"
        )),
        _ => None,
    }
}

fn encoded(text: &[u8]) -> Option<String> {
    let at = std::str::from_utf8(text).err()?.valid_up_to();
    let byte = *text.get(at)?;
    if text.starts_with(&[0xFF, 0xFE]) || text.starts_with(&[0xFE, 0xFF]) {
        return Some("it is UTF-16; save the file as UTF-8".into());
    }
    let latin = match byte {
        0xA0.. => format!(", in Latin-1 `{}`", plain(&char::from(byte).to_string())),
        _ => String::new(),
    };
    Some(format!("byte 0x{byte:X}{latin}; save the file as UTF-8"))
}

// How the header of a table of that name is written, where the rules know it.
fn header(name: &str) -> String {
    let (first, rest) = name.split_once('.').unwrap_or((name, ""));
    let own = |section: &Section| near(first, roots(*section)).is_some();
    match Section::READ.into_iter().find(own) {
        Some(Section::Application) if !rest.is_empty() => format!("[apps.{}]", plain(rest)),
        Some(section) => section.header().into(),
        None => format!("[{}]", plain(name)),
    }
}

fn is_root(name: &str) -> bool {
    let mut each = Section::READ.into_iter();
    each.any(|section| roots(section).contains(&name))
}

// A line with brackets too few or too many that is meant to be a header.
fn header_of(line: &str) -> Option<String> {
    let name = line.replace(['[', ']'], "");
    let name = name.trim_matches('.');
    let plain = |c: char| c.is_alphanumeric() || "-_.".contains(c);
    let ends = line.starts_with('[') || line.ends_with(']');
    let is = ends && !name.is_empty() && name.chars().all(plain);
    is.then(|| format!("a header is written {}", header(name)))
}

// A list whose brackets are not one at each end, where all of them are its own.
fn list_of(value: &str) -> Option<String> {
    let (list, scanned) = (value.replace(['[', ']'], ""), scan(value.as_bytes()));
    let own = scanned.opens + scanned.closes == value.len() - list.len();
    let list = format!("[{}]", trimmed(&list));
    let said = || format!("a list has one `[` and one `]`: {}", plain(&list));
    (own && list != "[]" && is_value(&list)).then(said)
}

// A line with a quote too few: the word beside the only one, where that is certain to be meant.
fn unclosed(line: &str) -> String {
    let said = "a `\"` has no second one";
    let value = assigned(line).map_or(line, |(_, value)| value);
    // a string that is open hides what begins a remark
    let value = value.split(" #").next().unwrap_or(value);
    let own = value.trim_matches(['[', ']', ',', ';', ' ', '\t']);
    let word = unquoted(own).trim_end_matches('"');
    let plain = |c: char| c.is_alphanumeric() || " -_./;".contains(c);
    let header = assigned(line).is_none() && line.contains(['[', ']']);
    if header || word.is_empty() || !word.chars().all(plain) {
        said.into()
    } else {
        format!("{said}: {}", quoted(word))
    }
}

// A key or a header with a part that is none.
fn unnamed(line: &str) -> String {
    let key = assigned(line).map_or(line, |(key, _)| key);
    let name = key.trim_matches(['[', ']', ' ']);
    if name.is_empty() {
        "no name stands between the brackets".into()
    } else if name.contains('"') {
        format!("a key needs no quotes: {}", plain(&name.replace('"', "")))
    } else {
        format!("`{}` has an empty part", plain(name))
    }
}

// A key in quotes with a dot in it, and how it would be without.
fn dotted(line: &str) -> String {
    let key = assigned(line).map_or(line, |(key, _)| key);
    let parts = key.split('"').zip([false, true].into_iter().cycle());
    let whole = parts.map(|(part, inside)| {
        let dash = if inside { "-" } else { "." };
        part.replace('.', dash)
    });
    let whole = plain(&whole.collect::<String>());
    format!("a dot parts a key, also between quotes: {whole}")
}

// The first backslash in a string with something else behind it than there may be.
fn escape(line: &str) -> Option<String> {
    let known = |at: usize| line[at + 1..].starts_with(['n', 't', 'r', '"', '\\']);
    let hides = |at: usize| scan(&line.as_bytes()[..at]).state == 1;
    let mut each = line.match_indices('\\').map(|(at, _)| at).take(PLACES);
    let at = each.find(|at| hides(*at) && !known(*at))?;
    let next = line[at + 1..].chars().next().unwrap_or(' ');
    let shown = plain(&next.to_string());
    if ['u', 'U', 'x'].contains(&next) {
        return Some(format!(
            "`\\{shown}`; a backslash is written `\\\\`, and characters as they are"
        ));
    }
    let (key, value) = assigned(line).unwrap_or_default();
    let path = value.replace('\\', "/");
    let path = if PATHS.contains(&key) && is_value(&path) {
        format!(": {}", plain(&path))
    } else {
        String::new()
    };
    Some(format!(
        "`\\{shown}`; a backslash is written `\\\\`, and in paths `/`{path}"
    ))
}

// A character that is written but not seen, such as a blank without width.
fn unseen(line: &str) -> Option<String> {
    let shown = |c: char| plain(&c.to_string());
    let hidden = |c: &char| !['\n', '\t'].contains(c) && shown(*c) != c.to_string();
    let own = line.chars().find(hidden)?;
    Some(format!("it has {}, which is not seen", shown(own)))
}

// What stands after a string or a list, of which other languages have some.
fn behind(rest: &str, before: &str) -> String {
    let field = rest.trim_start_matches([',', ';', ' ']);
    if is_remark(rest) {
        REMARK.into()
    } else if is_field(field) {
        format!("`{}` stands in a line of its own", plain(field))
    } else {
        format!("`{}` stands after {before}", plain(rest))
    }
}

fn is_field(line: &str) -> bool {
    assigned(line).is_some_and(|(key, _)| !key.is_empty())
}

fn after_list(line: &str) -> Option<String> {
    let (_, value) = assigned(line)?;
    let mut each = value.rmatch_indices(']').take(PLACES);
    let (at, _) = each.find(|(at, _)| !in_string(&value[..*at]))?;
    Some(behind(trimmed(&value[at + 1..]), "the list"))
}

// A string and what stands behind it.
fn parted(value: &str) -> Option<(&str, &str)> {
    let inner = value.strip_prefix('"')?;
    let mut store = vec![0; STORE_MIN];
    let read = value::string(inner.as_bytes(), &mut store);
    let at = (read.number == 0).then_some(1 + read.used)?;
    let rest = trimmed(value.get(at..)?);
    (!rest.is_empty()).then_some((&value[..at], rest))
}

// The first item of a list that has more than a string.
fn no_comma(list: &str) -> String {
    let mut items = list.trim_matches(['[', ']']).split(',').map(trimmed);
    match items.find_map(parted) {
        Some((own, rest)) => {
            let (own, rest) = (plain(own), plain(rest));
            format!("a comma is missing between {own} and {rest}")
        }
        None => "a comma stands between two items".into(),
    }
}

fn wants(field: (&str, Want), value: &str) -> String {
    format!("`{}` wants {}", field.0, wanted::said(field, value))
}

// A line of a text; the tables that it stands in are asked of the text before it.
struct At<'a> {
    text: &'a [u8],
    place: usize,
}

impl At<'_> {
    fn field(&self, key: &str) -> Option<(&'static str, Want)> {
        Spot::of(self.text, self.place, key)?.field()
    }

    // What a field wants that is no list and has a bracket, or a bracket in its key.
    fn bracketed(&self, line: &str) -> Option<String> {
        let (key, value) = assigned(line)?;
        let name = key.replace(['[', ']'], "");
        let name = trimmed(&name);
        if name != key && !name.is_empty() {
            return Some(format!("a key has no brackets: {}", plain(name)));
        }
        let field = self.field(key).filter(|(_, want)| *want != Want::List)?;
        let value = trimmed(value.trim_matches(['[', ']']));
        Some(wants(field, value))
    }

    // A bracket too many.
    fn closed(&self) -> Option<String> {
        let line = kept(lines::standing(self.text, self.place)?);
        let list = || assigned(&line).and_then(|(_, value)| list_of(value));
        let said = self.bracketed(&line).or_else(list);
        let said = said.or_else(|| header_of(&line));
        Some(said.unwrap_or_else(|| "a `]` has no `[` before it".into()))
    }

    // The first line from this one on with a string that is not closed there, else this line's brackets.
    fn open(&self) -> Option<String> {
        let (text, place) = (self.text, self.place);
        let own = lines::standing(text, place)?;
        let (line, remark) = (kept(own), own.get(text::kept(own)..)?);
        let each = text.split(|b| *b == b'\n').map(kept).zip(1..);
        let mut each = each.skip(place.saturating_sub(1));
        match each.find(|(line, _)| in_string(line)) {
            Some((line, at)) if at == place => Some(self.unclosed(&line)),
            Some((line, at)) => Some(format!("line {at}: {}", unclosed(&line))),
            None if remark.contains(&b']') => Some("a `]` after `#` is a remark".into()),
            None => {
                let list = || "a list ends with `]`".into();
                let said = self.bracketed(&line).or_else(|| header_of(&line));
                Some(said.unwrap_or_else(list))
            }
        }
    }

    // A number or a flag has no quotes, so that none is missing.
    fn unclosed(&self, line: &str) -> String {
        let (key, value) = assigned(line).unwrap_or_default();
        let plain = |field: &(&str, Want)| matches!(field.1, Want::Integer | Want::Boolean);
        match self.field(key).filter(plain) {
            Some(field) => wants(field, trimmed(value.trim_matches('"'))),
            None => unclosed(line),
        }
    }

    fn neither(&self, line: &str) -> String {
        if self.place == 1 && line.starts_with(MARK) {
            "a UTF-8 byte order mark at the start of the file; save it without".into()
        } else if line.contains('\0') {
            "it has zero bytes, as UTF-16 has; save the file as UTF-8".into()
        } else if let Some(unseen) = unseen(line) {
            unseen
        } else if line.starts_with([';', '%', '!']) || is_remark(line) {
            REMARK.into()
        } else if line.starts_with('[') {
            let name = line.trim_start_matches(['[', ' ']);
            let name = name.split([']', ' ']).next().unwrap_or(name);
            let header = header(name);
            format!("a header is written {header}, alone in its line")
        } else if self.hidden() {
            "what stands after `#` is a remark".into()
        } else {
            self.unassigned(line)
        }
    }

    // Whether the line has its `=` in a remark.
    fn hidden(&self) -> bool {
        let own = lines::standing(self.text, self.place).unwrap_or_default();
        let remark = own.get(text::kept(own)..).unwrap_or_default();
        let key = kept(own);
        remark.contains(&b'=') && self.field(&key).is_some()
    }

    // A key without its `=`, perhaps with `:` in its place.
    fn unassigned(&self, line: &str) -> String {
        let (key, value) = line.split_once([':', ' ', '\t']).unwrap_or((line, ""));
        let mut signs = [":", "->", "<-", "- "].iter();
        let value = trimmed(value);
        let value = signs.find_map(|s| value.strip_prefix(s)).unwrap_or(value);
        let value = trimmed(trimmed(value).trim_end_matches([',', ';']));
        let key = unquoted(trimmed(key));
        let field = self.field(key);
        if is_value(value) && !key.is_empty() {
            format!("`=` is missing: {} = {}", plain(key), plain(value))
        } else if let Some(field) = field {
            let wanted = wanted::said(field, value);
            format!("`=` is missing after `{}`, which wants {wanted}", field.0)
        } else if value.is_empty() && is_root(key) {
            format!("a header is written {}", header(key))
        } else {
            "a line is a header in brackets, key = value, or a remark after `#`".into()
        }
    }

    fn keyless(&self) -> Option<String> {
        let section = Spot::of(self.text, self.place, "x")?.section?;
        let keys: Vec<_> = fields(section).iter().map(|(key, _)| *key).collect();
        let (name, keys) = (section.name(), keys.join(", "));
        Some(plain(&format!("keys of {name} are {keys}")))
    }

    fn after_string(&self, line: &str) -> Option<String> {
        let (key, value) = assigned(line)?;
        let list = format!("[{value}]");
        let is_list = self.field(key).is_some_and(|(_, want)| want == Want::List);
        if value.starts_with("\"\"") && value.ends_with("\"\"") {
            let own = wanted::string(unquoted(value));
            let own = own.map_or(String::new(), |own| format!(": {own}"));
            Some(format!("one `\"` at each end is enough{own}"))
        } else if is_list && value.starts_with('"') && is_value(&list) {
            Some(format!("a list stands in brackets: {}", plain(&list)))
        } else if value.starts_with('[') {
            Some(no_comma(value))
        } else {
            let (own, rest) = parted(value)?;
            let inside = value[own.len()..].starts_with(char::is_alphanumeric);
            let quote = if inside && rest.ends_with('"') {
                "; a quote inside a string is written `\\\"`"
            } else {
                ""
            };
            Some(behind(rest, &plain(own)) + quote)
        }
    }

    fn no_value(&self, line: &str) -> Option<String> {
        let (key, written) = assigned(line)?;
        if let Some(more) = unseen(line).or_else(|| more_than_one(written)) {
            return Some(more);
        }
        let (value, remark) = unremarked(written);
        if remark && is_value(value) {
            return Some(REMARK.into());
        }
        let spot = Spot::of(self.text, self.place, key);
        let said = match spot.as_ref().and_then(Spot::field) {
            Some(field) => wants(field, value),
            None if value.contains('{') => braces(spot, key),
            None => ANY.into(),
        };
        if value.is_empty() {
            Some(format!("nothing stands after `=`; {said}"))
        } else if remark {
            Some(format!("{said}; {REMARK}"))
        } else {
            Some(said)
        }
    }

    // What bears the name of a list, and the line that made it.
    fn in_the_way(&self, line: &str) -> Option<String> {
        let before = lines::before(self.text, self.place);
        let tree = Tree::read(before)?;
        let name = line.strip_prefix("[[")?.strip_suffix("]]")?;
        let path = path(name)?;
        let (first, rest) = path.split_first()?;
        let down = |table, key: &String| tree.field(table, key);
        let value = rest.iter().try_fold(tree.root(first)?, down)?;
        let at = lines::making(before, value)?;
        let stands = plain(&kept(lines::standing(before, at)?));
        let (name, kind) = (plain(trimmed(name)), tree.kind(value).name());
        Some(format!("`{name}` is {kind} since line {at}: {stands}"))
    }
}

// The parts of a header's name, as the library reads it.
fn path(name: &str) -> Option<Vec<String>> {
    let tree = Tree::read(format!("[{name}]").as_bytes())?;
    let below = |table: &usize| tree.entries(*table).first().copied();
    let each = std::iter::successors(tree.top().first().copied(), below);
    each.map(|table| tree.key(table)).collect()
}

// A sign or a field too many in a line.
fn more_than_one(value: &str) -> Option<String> {
    let sign = value.chars().next().filter(|c| ['=', '>'].contains(c));
    let next = value.split_once([' ', '\t']);
    let next = next.filter(|(own, rest)| is_value(own) && is_field(rest));
    match (sign, next) {
        (Some(sign), _) => Some(format!("`={sign}` is written `=`")),
        (_, Some((_, rest))) => {
            let rest = plain(trimmed(rest));
            Some(format!("`{rest}` stands in a line of its own"))
        }
        _ => None,
    }
}

fn is_remark(rest: &str) -> bool {
    REMARKS.iter().any(|mark| rest.starts_with(mark))
}

// A value without a remark of another language, and whether there was one.
fn unremarked(value: &str) -> (&str, bool) {
    let marks = REMARKS
        .iter()
        .filter_map(|mark| value.find(&format!(" {mark}")));
    match marks.min() {
        Some(at) => (trimmed(&value[..at]), true),
        None => (value, is_remark(value)),
    }
}

fn braces(spot: Option<Spot>, key: &str) -> String {
    let header = match spot {
        Some(Spot { app: true, key, .. }) => format!("[apps.{}]", plain(&key)),
        _ => header(key),
    };
    format!("a table has a header of its own, {header}, and its fields below")
}
