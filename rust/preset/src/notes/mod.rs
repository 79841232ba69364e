//! Slips that the rules accept, found so that somebody speaks of them: they change no answer.
//!
//! A text without a tree (1 to 16) has none. What is repeated below an unknown key, or is one, is not looked into: the
//! key is noted as unknown. Of a table that is replaced later only the replacing is noted.
mod items;
mod names;
mod planned;
mod repeated;
pub(crate) mod tables;
mod values;

use crate::lines::Lines;
use crate::schema::Preset;
use crate::tree::Tree;
use crate::unknown;
use planned::Pair;
use std::fmt;

/// No more of one sort than these are found with their lines: a text that has more is mostly of another sort.
pub const MOST: usize = 10;

/// What sort of slip a note is about: the first three of any text with a tree, the others of accepted ones.
#[derive(Clone, Copy, Debug, PartialEq, Eq, PartialOrd, Ord, Hash)]
pub enum Sort {
    /// A key that is passed over ([`crate::unknown`]).
    Unknown,
    /// A key that is assigned again, or a value that is replaced.
    Key,
    /// A header that goes on with the table of an earlier one.
    Header,
    /// An application that can never be planned (81).
    Unplanned,
    /// A reference that leads elsewhere than it says, or nowhere.
    Reference,
    /// A package that is asked for with other features than it is built with.
    Features,
    /// An item of a feature list that looks like several.
    Item,
    /// A component that is not alone in its partition.
    Shared,
    /// A name that differs from another only in case or outer white space, or has such space.
    Name,
}

/// A slip that the rules accept.
///
/// Its `Display` is what stands after `FILE:LINE: note: `; texts of the preset are escaped in it, and cut where they
/// are long.
#[derive(Clone, Debug, PartialEq, Eq)]
pub struct Note {
    /// The line, from 1, that it is told at: of two places that are held together the later, of a reference and of an
    /// application that is never planned their own; of a value over many lines the first.
    pub line: Option<usize>,
    /// What sort of slip it is.
    pub sort: Sort,
    said: String,
}

/// How many notes of a sort there are beyond those that are found with their lines.
///
/// Its `Display` is what stands after `FILE: note: `.
#[derive(Clone, Copy, Debug, PartialEq, Eq)]
pub struct More {
    /// What sort of slip they are.
    pub sort: Sort,
    /// How many.
    pub count: usize,
}

/// All notes of a text.
#[derive(Clone, Debug, Default, PartialEq, Eq)]
pub struct Notes {
    /// In the order of lines, of each sort the first [`MOST`].
    pub told: Vec<Note>,
    /// The others, by sort.
    pub more: Vec<More>,
}

impl Notes {
    /// The notes of a text, with the name that its board has by default.
    ///
    /// ```
    /// use preset::notes::{Notes, Sort};
    ///
    /// let text = b"[[partition]]\nname = \"boot\"\nsize = 1\n\nname = \"env\"\nsize = 2\n";
    /// let found = Notes::of(text, b"board");
    /// assert_eq!(found.count(), 1);
    ///
    /// let lost = &found.told[0];
    /// assert_eq!((lost.line, lost.sort), (Some(5), Sort::Key));
    /// let said = "partition 0 \"env\": key \"name\" is assigned again, and 1 more up to line 6: is a header \
    ///             such as [[partition]] lost before line 5? name: \"env\" (line 5) counts, not \"boot\" (line 2); \
    ///             size: 2 (line 6) counts, not 1 (line 3)";
    /// assert_eq!(lost.to_string(), said);
    /// ```
    pub fn of(text: &[u8], name: &[u8]) -> Notes {
        let mut out = Notes::default();
        let Some(tree) = Tree::read(text) else {
            return out;
        };
        let lines = Lines::of(text);
        out.add(Sort::Unknown, unknown::keys(text), |key| {
            (key.line, key.to_string())
        });
        let again = repeated::found(&tree, &lines);
        let told = |run: repeated::Run| run.told(&tree, &lines);
        out.add(Sort::Key, again.keys.into_iter(), told);
        out.add(Sort::Header, again.headers.into_iter(), told);
        if let Ok(preset) = Preset::validate(text, name) {
            let mut pairs = planned::found(text, name, &preset, &tree);
            pairs.extend(names::found(&preset, &tree));
            pairs.extend(items::found(&tree));
            out.pairs(pairs, &lines);
        }
        // of one line in the order of sorts
        out.told.sort_by_key(|note| (note.line, note.sort));
        out
    }

    /// How many there are in all.
    pub fn count(&self) -> usize {
        let more = self.more.iter().map(|more| more.count);
        self.told.len() + more.sum::<usize>()
    }

    // The first of a sort, in the order of lines, are told; the others are counted.
    fn add<T>(
        &mut self,
        sort: Sort,
        mut found: impl ExactSizeIterator<Item = T>,
        tell: impl Fn(T) -> (Option<usize>, String),
    ) {
        let first = found.by_ref().take(MOST).map(tell);
        let told = first.map(|(line, said)| Note { line, sort, said });
        self.told.extend(told);
        let count = found.len();
        self.more
            .extend((count > 0).then_some(More { sort, count }));
    }

    fn pairs(&mut self, mut found: Vec<Pair>, lines: &Lines) {
        found.sort_by_key(|pair| (pair.sort, pair.at));
        for same in found.chunk_by(|a, b| a.sort == b.sort) {
            self.add(same[0].sort, same.iter(), |pair| pair.told(lines));
        }
    }
}

impl fmt::Display for Note {
    fn fmt(&self, f: &mut fmt::Formatter) -> fmt::Result {
        f.write_str(&self.said)
    }
}

impl fmt::Display for More {
    fn fmt(&self, f: &mut fmt::Formatter) -> fmt::Result {
        let (one, many) = match self.sort {
            Sort::Unknown => ("key is passed over", "keys are passed over"),
            Sort::Key => ("key is assigned again", "keys are assigned again"),
            Sort::Header => ("header comes again", "headers come again"),
            Sort::Unplanned => (
                "application can never be planned",
                "applications can never be planned",
            ),
            Sort::Reference => ("reference leads elsewhere", "references lead elsewhere"),
            Sort::Features => (
                "package is asked for with other features",
                "packages are asked for with other features",
            ),
            Sort::Item => ("item looks like several", "items look like several"),
            Sort::Shared => (
                "entry shares its partition",
                "entries share their partitions",
            ),
            Sort::Name => ("name is odd", "names are odd"),
        };
        match self.count {
            1 => write!(f, "1 more {one}"),
            count => write!(f, "{count} more {many}"),
        }
    }
}
