//! Keys that the rules do not know. They are no fault: a preset is accepted as if they were not there, and so nothing
//! else tells that one is misspelled.
use crate::fields::fields;
use crate::lines;
use crate::near::{begun, near};
use crate::notes::tables::{Table, tables};
use crate::refusal::Section;
use crate::shown::quoted;
use crate::tree::{Tree, roots};
use std::fmt;

/// A key that is passed over, with the table that it stands in.
///
/// Its `Display` is what stands after the file's name and line in a note; texts of the preset are
/// escaped in it.
#[derive(Clone, Debug, PartialEq, Eq)]
pub struct Unknown {
    /// The line, from 1, that the key has its value from; of a value over many lines the first.
    pub line: Option<usize>,
    /// The section, the entry's number from 0 and its name, as of a fault; none at the root.
    pub entry: Option<String>,
    /// The key, as it stands in the text.
    pub key: String,
    /// The key of that table that it is most likely meant to be.
    pub near: Option<&'static str>,
}

/// Every key that the rules do not know, in the order of the lines: at the root and in each table that
/// fields are read from. A text without a tree (1 to 16) has none, any other may, accepted or not.
///
/// A list's plural (`partitions`) is unknown where its singular is there and read in its place. What
/// stands below an unknown key is not looked into. Lines are found as they are asked for, which takes
/// far longer than counting.
///
/// ```
/// use preset::unknown;
///
/// let text = b"[board]\nchip = \"d13x\"\n[[componet]]\nname = \"x\"\n[[component]]\nnmae = \"y\"\n";
/// let mut found = unknown::keys(text);
/// assert_eq!(found.len(), 2);
///
/// let first = found.next().unwrap();
/// assert_eq!((first.line, first.entry.as_deref()), (Some(3), None));
/// assert_eq!((first.key.as_str(), first.near), ("componet", Some("component")));
///
/// let said = "component 0: unknown key \"nmae\" is passed over (name?)";
/// assert_eq!(found.next().unwrap().to_string(), said);
/// ```
pub fn keys(text: &[u8]) -> impl ExactSizeIterator<Item = Unknown> {
    let mut found = Tree::read(text).map_or(Vec::new(), |tree| all(&tree));
    // values are numbered as they are made, line by line
    found.sort_by_key(|(value, _)| *value);
    found.into_iter().map(|(value, key)| Unknown {
        line: lines::making(text, value),
        ..key
    })
}

// Each with the number of its value, and still without its line.
type Found = Vec<(usize, Unknown)>;

fn all(tree: &Tree) -> Found {
    let each = tables(tree).into_iter();
    each.flat_map(|table| strange(tree, table)).collect()
}

// Those of a table's values whose keys the rules do not know.
fn strange(tree: &Tree, table: Table) -> Found {
    let values = table.value.map_or(tree.top(), |value| tree.entries(value));
    let each = values.into_iter().filter_map(|value| {
        let key = tree.key(value)?;
        let known = table.known.as_ref().filter(|_| !table.knows(&key))?;
        let unknown = Unknown {
            line: None,
            entry: table.entry.clone(),
            near: near(&key, known).or_else(|| abbreviated(&key, known)),
            key,
        };
        Some((value, unknown))
    });
    each.collect()
}

// A key that is no other table's may be the beginning of one of these.
fn abbreviated(key: &str, known: &[&'static str]) -> Option<&'static str> {
    begun(key, known).filter(|_| headers(key).is_empty())
}

// The headers of the tables that have a key.
fn headers(key: &str) -> Vec<&'static str> {
    let known = |section: &Section| fields(*section).iter().any(|(own, _)| key == *own);
    let others = Section::READ.into_iter().filter(known);
    others.map(Section::header).collect()
}

impl Unknown {
    // A key of the root that the rules know is passed over beside another one only.
    fn doubles(&self) -> bool {
        let known = |section: Section| roots(section).contains(&self.key.as_str());
        self.entry.is_none() && Section::READ.into_iter().any(known)
    }
}

impl fmt::Display for Unknown {
    fn fmt(&self, f: &mut fmt::Formatter) -> fmt::Result {
        if let Some(entry) = &self.entry {
            write!(f, "{entry}: ")?;
        }
        let key = quoted(&self.key);
        match self.near {
            Some(other) if self.doubles() => {
                write!(f, "key {key} is passed over, since there is {other:?}")
            }
            Some(near) => write!(f, "unknown key {key} is passed over ({near}?)"),
            None => {
                let known = headers(&self.key).join(", ");
                let known = match known.as_str() {
                    "" if self.key.starts_with('[') => {
                        " (a header stands alone in its line)".into()
                    }
                    "" => known,
                    _ => format!(" (a key of {known})"),
                };
                write!(f, "unknown key {key} is passed over{known}")
            }
        }
    }
}
