//! docs/TOML-TEST.md: the files of the suite toml-test that are not answered as TOML 1.0.0 asks, each with the row of
//! docs/DIFFERENCES.md that covers it, and how many files there are.
use super::differences::{Cells, Row, cells, code, rows};

const PAPER: &str = include_str!("../../../../docs/TOML-TEST.md");

const OF_FILES: &str = "| file | here | TOML 1.0.0 | row |";
const OF_FOLDERS: &str = "| folder | files | as TOML 1.0.0 says | named below |";
const RULE: &str = "|---|---|---|---|";

/// What is answered where TOML refuses, and where it reads another tree.
pub const ACCEPTED: &str = "accepted";
pub const OTHERWISE: &str = "read otherwise";

/// A valid file of a later TOML, as the suite's own list of versions says; 1.0.0 refuses it.
pub const LATER: &str = "valid/string/escape-esc";

/// Whether TOML 1.0.0 accepts a file, by its folder.
pub fn valid(file: &str) -> bool {
    file.starts_with("valid/") && file != LATER
}

/// A file that departs, without its ending; the row is as it is written in the table.
pub struct Named {
    pub line: usize,
    pub file: &'static str,
    pub here: &'static str,
    heading: &'static str,
    theirs: &'static str,
    row: &'static str,
}

/// How many files a folder has, are answered as TOML 1.0.0 says, and depart.
#[derive(Debug, PartialEq, Eq)]
pub struct Folder {
    pub name: String,
    pub counts: [usize; 3],
}

fn tables(head: &str) -> Vec<Cells> {
    let all = cells(PAPER, &[OF_FILES, OF_FOLDERS], RULE);
    all.into_iter().filter(|c| c.head == head).collect()
}

pub fn named() -> Vec<Named> {
    let named = |c: Cells| {
        let line = c.line;
        let [file, here, theirs, row] = c.each[..] else {
            panic!("line {line}: no row of four cells: {:?}", c.each);
        };
        let inside = |cell| code(cell).unwrap_or_else(|| panic!("line {line}: no code: {cell}"));
        Named {
            line,
            file: inside(file),
            here: inside(here),
            heading: c.heading,
            theirs: inside(theirs),
            row,
        }
    };
    tables(OF_FILES).into_iter().map(named).collect()
}

pub fn folders() -> Vec<Folder> {
    let folder = |c: Cells| {
        let [name, ref counts @ ..] = c.each[..] else {
            panic!("line {}: no row", c.line);
        };
        let counts: Vec<_> = counts.iter().map_while(|n| n.parse().ok()).collect();
        Folder {
            name: code(name).expect("a folder").into(),
            counts: counts.try_into().expect("three numbers"),
        }
    };
    tables(OF_FOLDERS).into_iter().map(folder).collect()
}

impl Named {
    /// What is wrong with it by the two documents alone.
    pub fn fault(&self) -> Option<String> {
        let theirs = if valid(self.file) {
            ACCEPTED
        } else {
            "refused"
        };
        if self.theirs != theirs {
            return Some(format!("TOML 1.0.0: {theirs}, not {}", self.theirs));
        }
        let rows = rows().into_iter().filter(|r| r.of_toml);
        match rows.into_iter().find(|r| r.asked == self.row) {
            None => Some(format!("DIFFERENCES.md has no row {}", self.row)),
            Some(r) if r.heading != self.heading => {
                Some(format!("{} stands under {}", self.row, r.heading))
            }
            Some(r) if self.sort() != sort(&r) => Some(format!(
                "{} is no row for {} where TOML says {theirs}",
                self.row, self.here
            )),
            Some(_) => None,
        }
    }

    // What a row must have in common with what it covers.
    fn sort(&self) -> (&'static str, &'static str) {
        let here = match self.here {
            OTHERWISE => ACCEPTED,
            here => here,
        };
        (until_place(here), self.theirs)
    }
}

fn sort(row: &Row) -> (&'static str, &'static str) {
    let theirs = code(row.theirs).unwrap_or_default();
    let first = |answer: &'static str| answer.split(' ').next().unwrap_or_default();
    let here = match first(row.here) {
        ACCEPTED => ACCEPTED,
        _ => until_place(row.here),
    };
    (here, first(theirs))
}

// A refusal's number without its place.
fn until_place(answer: &str) -> &str {
    answer.split(" at ").next().unwrap_or_default()
}
