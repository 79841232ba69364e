//! Keys and headers that come again. Nothing is ever taken out of a tree room, and the newest value of a table's key
//! counts: so one with a newer beside it is replaced, and the library's own numbers tell which line made each.
//!
//! Lines of one slip are one note: what is assigned again after a second header of the same table, or after a header
//! that is lost. The name of an entry comes again there, or several keys do; but where it comes again directly after
//! itself, only a line is there twice.
//!
//! No slip, and so not noted: a header after a longer one (`[apps]` after `[apps.k]`), one whose table was so far made
//! by dotted keys alone, and `[[partition]]` after `partition = []`, where nothing is lost.
use super::tables::{Table, tables};
use super::values::{lists, said, same};
use crate::lines::Lines;
use crate::refusal::Section;
use crate::shown::{plain, quoted};
use crate::tree::{Kind, Tree, roots};
use std::collections::{BTreeMap, BTreeSet};

pub(crate) struct Again {
    pub keys: Vec<Run>,
    pub headers: Vec<Run>,
}

/// Lines that belong together: a header that comes again, keys that are assigned again, or both.
pub(crate) struct Run {
    entry: Option<String>,
    section: Option<Section>,
    header: Option<Header>,
    repeats: Vec<Repeat>,
}

/// A header line with an earlier one of the same table.
struct Header {
    /// Its number among the joined lines, and its physical line.
    number: usize,
    at: usize,
    first: usize,
    path: Vec<String>,
}

/// A value with the one before it under the same key.
struct Repeat {
    key: String,
    new: usize,
    old: usize,
    /// The value that counts in the end.
    newest: usize,
    /// Which of all values of its table the new one is, and the old one.
    places: (usize, usize),
}

/// Both sorts in the order of their lines.
pub(crate) fn found(tree: &Tree, lines: &Lines) -> Again {
    let tables = tables(tree).into_iter();
    let tables: Vec<(Vec<Repeat>, Table)> = tables.map(|t| (repeats(tree, &t), t)).collect();
    let mut later = headers(tree, lines, &tables);
    let (mut keys, mut headers) = (Vec::new(), Vec::new());
    for (repeats, table) in tables {
        let own = table.value.and_then(|value| later.remove(&value));
        let (headed, rest) = runs(lines, &table, repeats, own.unwrap_or_default());
        headers.extend(headed);
        keys.extend(rest);
    }
    // those of tables where a list is asked for
    let rest = later.into_values().flatten();
    headers.extend(rest.map(|header| Run {
        entry: None,
        section: None,
        header: Some(header),
        repeats: Vec::new(),
    }));
    keys.sort_by_key(|run| run.repeats.first().map(|repeat| repeat.new));
    headers.sort_by_key(|run| run.header.as_ref().map(|header| header.number));
    Again { keys, headers }
}

// Header lines by the table that they go on with.
fn headers(
    tree: &Tree,
    lines: &Lines,
    tables: &[(Vec<Repeat>, Table)],
) -> BTreeMap<usize, Vec<Header>> {
    let mut named: BTreeMap<Vec<String>, Vec<(usize, usize)>> = BTreeMap::new();
    for line in lines.each() {
        if let Some(path) = path(line.text) {
            let own = named.entry(path).or_default();
            own.push((line.number, line.at));
        }
    }
    let repeats = tables.iter().flat_map(|(repeats, _)| repeats);
    let newer: BTreeSet<usize> = repeats.map(|repeat| repeat.new).collect();
    let root = tables.first().map(|(_, root)| root);
    let several = named.into_iter().filter(|(_, own)| own.len() > 1);
    let each = several.filter_map(|(path, own)| {
        let (value, above) = named_table(tree, root?, &path)?;
        // before the line that made it they named a table that was replaced
        let again = newer.contains(&value) || newer.contains(&above);
        let made = again.then(|| lines.making(value)).flatten().unwrap_or(0);
        Some((value, after(made, &path, own)?))
    });
    each.collect()
}

// Of the lines with a header, from one on, all but the first.
fn after(made: usize, path: &[String], own: Vec<(usize, usize)>) -> Option<Vec<Header>> {
    let mut own = own.into_iter().filter(|(_, at)| *at >= made);
    let first = own.next()?.1;
    let later = own.map(|(number, at)| Header {
        number,
        at,
        first,
        path: path.to_vec(),
    });
    Some(later.collect())
}

// What a line's header names, in one pair of brackets. The line is read as a text of its own: an assignment's path ends
// in no table, and `[[..]]` in an array.
fn path(line: &[u8]) -> Option<Vec<String>> {
    let tree = Tree::read(line)?;
    let mut at = tree.top().first().copied()?;
    let mut path = vec![tree.key(at)?];
    while let Some(below) = tree.entries(at).first() {
        at = *below;
        path.push(tree.key(at)?);
    }
    (tree.kind(at) == Kind::Table).then_some(path)
}

// The table that a path names in the end, where the rules know it, and the one above it, if any.
fn named_table(tree: &Tree, root: &Table, path: &[String]) -> Option<(usize, usize)> {
    let (value, above) = match path {
        [key] => {
            let value = tree.root(key).filter(|_| root.knows(key))?;
            (value, value)
        }
        [apps, key] if apps == "apps" => {
            let apps = tree.root(apps)?;
            (tree.field(apps, key)?, apps)
        }
        _ => return None,
    };
    (tree.kind(value) == Kind::Table).then_some((value, above))
}

// A table's notes: its headers, each with the keys after it, and the other keys.
fn runs(
    lines: &Lines,
    table: &Table,
    repeats: Vec<Repeat>,
    own: Vec<Header>,
) -> (Vec<Run>, Vec<Run>) {
    // without repeats nobody asks for them
    let asked = own.iter().filter(|_| !repeats.is_empty());
    let bounds: Vec<usize> = asked.map(|header| lines.before(header.number)).collect();
    let mut rest = split(repeats, table.section.is_some(), &bounds);
    let run = |header, repeats| Run {
        entry: table.entry.clone(),
        section: table.section,
        header,
        repeats,
    };
    let headed = own.into_iter().enumerate().map(|(n, header)| {
        let from = bounds.get(n).copied().unwrap_or(usize::MAX);
        let end = bounds.get(n + 1).copied().unwrap_or(usize::MAX);
        let after = |repeats: &Vec<Repeat>| (from..end).contains(&repeats[0].new);
        let after = rest.iter().position(after).map(|at| rest.remove(at));
        run(Some(header), after.unwrap_or_default())
    });
    let headed = headed.collect();
    let rest = rest.into_iter().map(|repeats| run(None, repeats));
    (headed, rest.collect())
}

fn repeats(tree: &Tree, table: &Table) -> Vec<Repeat> {
    let mut last: BTreeMap<String, (usize, usize)> = BTreeMap::new();
    let newest = |key: &str| match table.value {
        None => tree.root(key),
        Some(table) => tree.field(table, key),
    };
    let values = tree.ever(table.value).into_iter().enumerate();
    let each = values.filter_map(|(place, new)| {
        let key = tree.key(new).filter(|key| table.knows(key))?;
        let (old, before) = last.insert(key.clone(), (new, place))?;
        Some(Repeat {
            newest: newest(&key)?,
            key,
            new,
            old,
            places: (place, before),
        })
    });
    each.collect()
}

// Those that follow one another, so far as they are one slip.
fn split(repeats: Vec<Repeat>, joined: bool, bounds: &[usize]) -> Vec<Vec<Repeat>> {
    let mut out: Vec<Vec<Repeat>> = Vec::new();
    for repeat in repeats {
        match out.last_mut() {
            Some(run) if joined && goes_on(run, &repeat, bounds) => run.push(repeat),
            _ => out.push(vec![repeat]),
        }
    }
    out
}

// After a name that comes again all is another entry's, up to its next key that is there already.
fn goes_on(run: &[Repeat], next: &Repeat, bounds: &[usize]) -> bool {
    let Some(last) = run.last() else { return true };
    let apart = bounds.iter().any(|b| last.new < *b && *b <= next.new);
    let beside = last.places.0 + 1 == next.places.0;
    let named = run.iter().any(|repeat| repeat.key == "name");
    let other = run.iter().all(|repeat| repeat.key != next.key);
    !apart && other && (beside || named)
}

impl Run {
    /// Its line, and what is said there.
    pub fn told(&self, tree: &Tree, lines: &Lines) -> (Option<usize>, String) {
        let first = self.repeats.first();
        let at = first.and_then(|first| lines.making(first.new));
        let entry = self.entry.as_ref().filter(|_| self.header.is_none());
        let entry = entry.map_or(String::new(), |entry| format!("{entry}: "));
        let again = first.map(|first| first.again(tree) + &self.more(lines));
        let headed = self.header.as_ref().map(Header::said);
        let said = [headed, again].into_iter().flatten();
        let values = first.map(|_| self.values(tree, lines));
        let asked = self.asked(tree, lines, at);
        let rest = [asked, values].into_iter().flatten();
        let said: Vec<String> = said.collect();
        let rest: Vec<String> = rest.collect();
        let between = if rest.is_empty() { "" } else { ": " };
        let said = said.join("; ") + between + &rest.join(" ");
        let header = self.header.as_ref().map(|header| header.at);
        (header.or(at), entry + &said)
    }

    fn more(&self, lines: &Lines) -> String {
        match (self.repeats.len(), self.repeats.last()) {
            (count @ 2.., Some(last)) => {
                let line = line(lines, last.new);
                format!(", and {} more up to {line}", count - 1)
            }
            _ => String::new(),
        }
    }

    // Of each key both values with their lines, and which one counts; of several by their keys.
    fn values(&self, tree: &Tree, lines: &Lines) -> String {
        let several = self.repeats.len() > 1;
        let each = self.repeats.iter().map(|own| {
            let key = several.then(|| format!("{}: ", plain(&own.key)));
            key.unwrap_or_default() + &own.values(tree, lines)
        });
        each.collect::<Vec<_>>().join("; ")
    }

    // What is likely meant.
    fn asked(&self, tree: &Tree, lines: &Lines, at: Option<usize>) -> Option<String> {
        match (&self.header, self.section) {
            (Some(_), Some(Section::Application)) => Some("is another [apps.KEY] meant?".into()),
            (Some(header), None) => header.list().map(|list| format!("is {list} meant?")),
            (Some(_), Some(_)) => None,
            (None, None) if self.entry.is_some() => None,
            (None, None) => self.repeats.first()?.list(tree),
            (None, Some(_)) if !self.plain(lines, at?) => None,
            (None, Some(section)) => self.lost(tree, section, at?),
        }
    }

    // Whether its first line assigns its key without dots: only such a line stands below its own header.
    fn plain(&self, lines: &Lines, at: usize) -> bool {
        let line = lines.each().find(|line| line.at == at);
        let alone = line.and_then(|line| Tree::read(line.text));
        let first = self.repeats.first();
        first.is_some_and(|first| alone.is_some_and(|tree| tree.root(&first.key).is_some()))
    }

    fn lost(&self, tree: &Tree, section: Section, at: usize) -> Option<String> {
        let named = self.repeats.iter().any(|repeat| repeat.key == "name");
        let alone = self.repeats.len() == 1;
        let beside = |repeat: &Repeat| repeat.places.1 + 1 == repeat.places.0;
        if alone && (!named || self.repeats.iter().all(beside)) {
            return None;
        }
        let such = match section {
            Section::Partition | Section::Component => {
                format!(" such as [[{}]]", tree.whole_key(section)?)
            }
            Section::Application => " such as [apps.KEY]".into(),
            _ => String::new(),
        };
        let lost = format!("is a header{such} lost before line {at}?");
        let same = self.repeats.iter().all(|repeat| repeat.same(tree));
        if same {
            Some("are lines there twice?".into())
        } else if named {
            Some(lost)
        } else {
            Some(format!("are lines there twice, or {lost}"))
        }
    }
}

impl Header {
    fn said(&self) -> String {
        let path: Vec<String> = self.path.iter().map(|key| plain(key)).collect();
        let (path, first) = (path.join("."), self.first);
        format!("[{path}] comes again and goes on with the table of line {first}")
    }

    // Two brackets in the place of one, where the rules ask for a list.
    fn list(&self) -> Option<String> {
        let key = self.path.first()?;
        listed(key).then(|| format!("[[{key}]]"))
    }
}

impl Repeat {
    fn again(&self, tree: &Tree) -> String {
        let made = |value| tree.kind(value) == Kind::Table || lists(tree, value);
        let word = if made(self.new) || made(self.old) {
            "replaced"
        } else {
            "assigned again"
        };
        format!("key {} is {word}", quoted(&self.key))
    }

    // A list of the root that a header in one pair of brackets has replaced.
    fn list(&self, tree: &Tree) -> Option<String> {
        let is = tree.kind(self.new) == Kind::Table && lists(tree, self.old);
        (is && listed(&self.key)).then(|| format!("is [[{}]] meant?", self.key))
    }

    fn same(&self, tree: &Tree) -> bool {
        same(tree, self.new, self.old)
    }

    // Both values with their lines, and which one counts.
    fn values(&self, tree: &Tree, lines: &Lines) -> String {
        let [new, old] = [self.new, self.old].map(|value| said(tree, lines, value));
        let [new_at, old_at] = [self.new, self.old].map(|value| line(lines, value));
        if self.newest != self.new {
            let last = line(lines, self.newest);
            format!("{new} ({new_at}) replaces {old} ({old_at}), and {last} counts")
        } else if self.same(tree) {
            format!("{new} ({new_at}) counts, the same as before ({old_at})")
        } else {
            format!("{new} ({new_at}) counts, not {old} ({old_at})")
        }
    }
}

// Whether the rules ask for a list at this key of the root.
fn listed(key: &str) -> bool {
    let own = [Section::Partition, Section::Component].map(roots);
    own.concat().contains(&key)
}

fn line(lines: &Lines, value: usize) -> String {
    let line = lines.making(value);
    line.map_or("no line".into(), |line| format!("line {line}"))
}
