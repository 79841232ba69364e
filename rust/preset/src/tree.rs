//! A text's tree by its values' numbers, in which places of the text can be told even where its records are refused.
use crate::refusal::Section;
use crate::rooms::Held;
use port::document::{self, ROOT};
use port::value::{Slot, slot};

#[derive(Clone, Copy, Debug, PartialEq, Eq)]
pub(crate) enum Kind {
    Text,
    Integer,
    Boolean,
    Array,
    Table,
}

impl Kind {
    pub fn name(self) -> &'static str {
        match self {
            Kind::Text => "a string",
            Kind::Integer => "an integer",
            Kind::Boolean => "a boolean",
            Kind::Array => "an array",
            Kind::Table => "a table",
        }
    }
}

pub(crate) struct Tree(Held);

impl Tree {
    /// None where the text has no tree: 1 to 16.
    pub fn read(text: &[u8]) -> Option<Tree> {
        Held::by(|store, tree| document::read(text, store, tree))
            .ok()
            .map(Tree)
    }

    pub fn made(&self) -> usize {
        self.0.made
    }

    fn slot(&self, value: usize) -> Slot {
        slot(&self.0.tree, value)
    }

    fn find(&self, parent: u16, key: &str) -> Option<usize> {
        let Held { store, tree, made } = &self.0;
        document::find(tree, store, *made, parent, key.as_bytes())
    }

    pub fn root(&self, key: &str) -> Option<usize> {
        self.find(ROOT, key)
    }

    /// The value of a table's key.
    pub fn field(&self, table: usize, key: &str) -> Option<usize> {
        let own = under(table).filter(|_| self.kind(table) == Kind::Table)?;
        self.find(own, key)
    }

    /// An array's items.
    pub fn items(&self, array: usize) -> Vec<usize> {
        let own = under(array).filter(|_| self.kind(array) == Kind::Array);
        own.map_or(Vec::new(), |own| self.hung(own))
    }

    /// Every value that a table has had, or the root for none, in the order made: also those that newer ones of the
    /// same key have replaced.
    pub fn ever(&self, table: Option<usize>) -> Vec<usize> {
        let own = match table {
            None => Some(ROOT),
            Some(table) => under(table).filter(|_| self.kind(table) == Kind::Table),
        };
        own.map_or(Vec::new(), |own| self.hung(own))
    }

    fn hung(&self, parent: u16) -> Vec<usize> {
        let Held { tree, made, .. } = &self.0;
        let after = |from| document::child(tree, *made, parent, from);
        std::iter::successors(after(0), |n| after(n + 1)).collect()
    }

    /// A table's values in byte order of key.
    pub fn entries(&self, table: usize) -> Vec<usize> {
        let own = under(table).filter(|_| self.kind(table) == Kind::Table);
        own.map_or(Vec::new(), |own| self.sorted(own))
    }

    /// The root's values in byte order of key.
    pub fn top(&self) -> Vec<usize> {
        self.sorted(ROOT)
    }

    fn sorted(&self, parent: u16) -> Vec<usize> {
        let Held { store, tree, made } = &self.0;
        let after = |n| document::next(tree, store, *made, parent, n);
        std::iter::successors(after(None), |&n| after(Some(n))).collect()
    }

    pub fn kind(&self, value: usize) -> Kind {
        match self.slot(value).kind {
            1 => Kind::Text,
            2 | 6 => Kind::Integer,
            3 => Kind::Boolean,
            4 => Kind::Array,
            _ => Kind::Table,
        }
    }

    fn part(&self, from: usize, len: usize) -> Option<String> {
        let bytes = self.0.store.get(from..from.checked_add(len)?)?;
        Some(String::from_utf8_lossy(bytes).into_owned())
    }

    pub fn key(&self, value: usize) -> Option<String> {
        let slot = self.slot(value);
        self.part(slot.key as usize, slot.len as usize)
    }

    pub fn text(&self, value: usize) -> Option<String> {
        let data = self.slot(value).data as usize;
        let is = self.kind(value) == Kind::Text;
        is.then(|| self.part(data % 65_536, data / 65_536))?
    }

    pub fn integer(&self, value: usize) -> Option<i128> {
        let Slot { kind, data, .. } = self.slot(value);
        match kind {
            2 => Some(data.into()),
            6 => Some(-i128::from(data)),
            _ => None,
        }
    }

    pub fn boolean(&self, value: usize) -> Option<bool> {
        let Slot { kind, data, .. } = self.slot(value);
        (kind == 3).then_some(data == 1)
    }

    /// What a section's entries stand in, or its one table.
    pub fn whole(&self, section: Section) -> Option<usize> {
        roots(section).iter().find_map(|key| self.root(key))
    }

    /// The key that the whole section has at the root.
    pub fn whole_key(&self, section: Section) -> Option<String> {
        self.key(self.whole(section)?)
    }

    /// All entries of a list, whatever they are.
    pub fn list(&self, section: Section) -> Vec<usize> {
        let whole = self.whole(section);
        match section {
            Section::Partition | Section::Component => {
                whole.map_or(Vec::new(), |list| self.items(list))
            }
            Section::Application => whole.map_or(Vec::new(), |list| self.entries(list)),
            _ => Vec::new(),
        }
    }

    /// What a section's fields are read from: its one table, or each entry of its list.
    pub fn tables(&self, section: Section) -> Vec<usize> {
        match section {
            Section::Board | Section::Image => self.whole(section).into_iter().collect(),
            _ => self.list(section),
        }
    }

    /// A list's entry, or the section's one table.
    pub fn entry(&self, section: Section, place: usize) -> Option<usize> {
        match section {
            Section::Board | Section::Image => self.whole(section),
            _ => self.list(section).get(place).copied(),
        }
    }

    /// What an entry is called: an application by its key, others by their `name`.
    pub fn called(&self, section: Section, entry: usize) -> Option<String> {
        match section {
            Section::Application => self.key(entry),
            _ => self.text(self.field(entry, "name")?),
        }
    }
}

/// The keys of the root that a section is read from; of two the first, where both are there.
pub(crate) fn roots(section: Section) -> &'static [&'static str] {
    match section {
        Section::Text => &[],
        Section::Board => &["board"],
        Section::Image => &["image"],
        Section::Partition => &["partition", "partitions"],
        Section::Component => &["component", "components"],
        Section::Application => &["apps"],
    }
}

// The parent's number of what hangs under a value.
fn under(value: usize) -> Option<u16> {
    u16::try_from(value).ok()?.checked_add(2)
}
