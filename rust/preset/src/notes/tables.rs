//! The tables that the rules read keys from, in a text's tree.
use crate::entry::named;
use crate::fields::fields;
use crate::refusal::Section;
use crate::tree::{Kind, Tree, roots};

/// A table that keys are read from.
pub(crate) struct Table {
    /// None is the root.
    pub value: Option<usize>,
    /// Whose table or entry it is; `apps` itself is nobody's.
    pub section: Option<Section>,
    /// What messages call it.
    pub entry: Option<String>,
    /// The keys that the rules know in it; none where every key is an application's.
    pub known: Option<Vec<&'static str>>,
}

/// All of them, the root first; what stands below an unknown key is not among them.
pub(crate) fn tables(tree: &Tree) -> Vec<Table> {
    let root = Table {
        value: None,
        section: None,
        entry: None,
        known: Some(Section::READ.map(|section| read(tree, section)).concat()),
    };
    let apps = tree.whole(Section::Application);
    let apps = apps.filter(|apps| tree.kind(*apps) == Kind::Table);
    let apps = apps.map(|apps| Table {
        value: Some(apps),
        section: None,
        entry: Some("apps".into()),
        known: None,
    });
    let mut out: Vec<Table> = [root].into_iter().chain(apps).collect();
    for section in Section::READ {
        let values = tree.tables(section).into_iter().enumerate();
        out.extend(values.map(|(place, value)| table(tree, section, place, value)));
    }
    out
}

fn table(tree: &Tree, section: Section, place: usize, value: usize) -> Table {
    let entry = match section {
        Section::Board | Section::Image => section.name().into(),
        _ => named(tree, section, place, Some(value)),
    };
    Table {
        value: Some(value),
        section: Some(section),
        entry: Some(entry),
        known: Some(fields(section).iter().map(|(key, _)| *key).collect()),
    }
}

impl Table {
    pub fn knows(&self, key: &str) -> bool {
        let known = self.known.as_ref();
        known.is_none_or(|known| known.contains(&key))
    }
}

// The keys of the root that a section is read from in this text: after one that is there no other counts.
fn read(tree: &Tree, section: Section) -> &'static [&'static str] {
    let keys = roots(section);
    let there = keys.iter().position(|key| tree.root(key).is_some());
    there.map_or(keys, |at| &keys[..=at])
}
