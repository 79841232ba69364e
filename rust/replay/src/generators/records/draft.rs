//! Presets in blocks of lines, and changes of them.
use super::spelling::{LOCK, SECTIONS, Section, Sort, spellings};

/// One header and the lines below it, each a key and what stands after it.
#[derive(Clone, Debug)]
pub struct Block {
    pub section: Section,
    pub header: String,
    pub lines: Vec<(String, String)>,
    /// Blocks of a lower rank stand first.
    pub rank: usize,
}

/// A preset in parts: lines in front of all headers, then blocks.
#[derive(Clone, Debug, Default)]
pub struct Draft {
    pub top: Vec<String>,
    pub blocks: Vec<Block>,
}

impl Block {
    /// With the fields that may not be missing.
    pub fn bare(section: Section, n: usize) -> Block {
        let mut lines = Vec::new();
        for &key in section.needed() {
            let rest = match key {
                "name" => format!(" = \"n{n}\""),
                _ => format!(" = {n}"),
            };
            lines.push((key.into(), rest));
        }
        Block {
            section,
            header: section.header(n),
            lines,
            rank: 1,
        }
    }

    /// With every field.
    fn full(section: Section, n: usize) -> Block {
        let each = section.fields().iter().map(|(key, sort)| {
            let rest = match sort {
                Sort::Text => format!(" = \"{key} {n}\""),
                Sort::Path => format!(" = \"path/{n}.bin\""),
                Sort::Features => format!(" = \"{key} a{n}\""),
                Sort::Number => format!(" = {}", 1_000 + n),
                _ => spellings(*sort).right[n].clone(),
            };
            (key.to_string(), rest)
        });
        Block {
            lines: each.collect(),
            ..Block::bare(section, n)
        }
    }
}

impl Draft {
    fn of(block: fn(Section, usize) -> Block) -> Draft {
        let each = |section: Section| (0..section.entries()).map(move |n| block(section, n));
        Draft {
            top: Vec::new(),
            blocks: SECTIONS.into_iter().flat_map(each).collect(),
        }
    }

    /// Two entries of each list, with nothing in them that could be missing.
    pub fn bare() -> Draft {
        Draft::of(Block::bare)
    }

    /// The same with every field that the original knows.
    pub fn full() -> Draft {
        let mut draft = Draft::locked();
        for block in &mut draft.blocks {
            block.lines.retain(|(key, _)| key != LOCK.0);
        }
        draft
    }

    /// The same with every field.
    pub fn locked() -> Draft {
        Draft::of(Block::full)
    }

    /// All of them.
    pub fn all() -> [Draft; 3] {
        [Draft::bare(), Draft::full(), Draft::locked()]
    }

    /// The text.
    pub fn text(&self) -> String {
        let mut blocks: Vec<_> = self.blocks.iter().collect();
        blocks.sort_by_key(|block| block.rank);
        let mut out: String = self.top.iter().map(|line| line.clone() + "\n").collect();
        for block in blocks {
            out += &format!("{}\n", block.header);
            let lines = block.lines.iter();
            out.extend(lines.map(|(key, rest)| format!("{key}{rest}\n")));
        }
        out
    }
}

/// A change of a draft.
#[derive(Clone, Debug)]
pub enum Edit {
    /// What stands after a key of an entry; none: the field is left out.
    Field(Section, usize, &'static str, Option<String>),
    /// A block, or a line in front of all headers, in place of a section.
    Instead(&'static str),
    /// The same beside the section.
    Beside(&'static str),
    /// So many entries.
    Count(Section, usize),
}

impl Edit {
    /// Changes the draft; what is changed stands in front where `rank` is 0, else at the end.
    pub fn apply(&self, draft: &mut Draft, rank: usize) {
        match self {
            Edit::Field(section, entry, key, rest) => {
                let mut entries = draft.blocks.iter_mut().filter(|b| b.section == *section);
                if let Some(block) = entries.nth(*entry) {
                    block.rank = rank;
                    set(&mut block.lines, key, rest.as_deref(), rank);
                }
            }
            Edit::Instead(text) => {
                draft.drop(about(text));
                draft.add(text, rank);
            }
            Edit::Beside(text) => draft.add(text, rank),
            Edit::Count(section, count) => {
                draft.drop(*section);
                let each = (0..*count).map(|n| Block {
                    rank,
                    ..Block::bare(*section, n)
                });
                draft.blocks.extend(each);
            }
        }
    }
}

// The section that a line or a block is about.
fn about(text: &str) -> Section {
    let key = text.trim_start_matches('[');
    let found = SECTIONS.into_iter().find(|s| key.starts_with(s.word()));
    found.expect("edits are about sections")
}

impl Draft {
    fn drop(&mut self, section: Section) {
        self.blocks.retain(|b| b.section != section);
    }

    fn add(&mut self, text: &str, rank: usize) {
        if !text.starts_with('[') {
            let at = if rank == 0 { 0 } else { self.top.len() };
            return self.top.insert(at, text.into());
        }
        self.blocks.push(Block {
            section: about(text),
            header: text.into(),
            lines: Vec::new(),
            rank,
        });
    }
}

fn set(lines: &mut Vec<(String, String)>, key: &str, rest: Option<&str>, rank: usize) {
    lines.retain(|(held, _)| held != key);
    let Some(rest) = rest else {
        return;
    };
    let at = if rank == 0 { 0 } else { lines.len() };
    lines.insert(at, (key.into(), rest.into()));
}
