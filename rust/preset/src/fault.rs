//! Where in a text a refusal points: its line, its entry and what is wrong there.
use crate::clash;
use crate::detail;
use crate::entry::{called, of_whole};
use crate::fields;
use crate::lines;
use crate::reading;
use crate::refusal::{Refusal, Section};
use crate::shown;
use crate::tree::Tree;
use std::fmt;

/// A refusal with what the text has where it points.
///
/// Its `Display` is what stands after the file's name and line in a message; texts of the preset
/// are escaped in it.
///
/// ```
/// use preset::{Fault, Preset};
///
/// let text = std::fs::read_to_string("../../presets/example.toml").unwrap();
/// let text = text.replace("boot;mtd", "bot;mtd").into_bytes();
/// let refusal = Preset::validate(&text, b"example").unwrap_err();
/// let fault = Fault::find(&text, refusal, None);
/// assert_eq!(fault.line, Some(15));
/// assert_eq!(fault.text.as_deref(), Some("partition = \"bot;mtd\""));
/// let said = "component 0 \"first\": refused 58: unknown partition \"bot\" (\"boot\"?)";
/// assert!(fault.to_string().starts_with(said));
/// ```
#[derive(Clone, Debug, PartialEq, Eq)]
pub struct Fault {
    /// The number, section and place.
    pub refusal: Refusal,
    /// The line, from 1, of the field at fault, else of its entry; none where nothing in the text
    /// is certain to be meant. Of a value over many lines it is the first.
    pub line: Option<usize>,
    /// What stands in that line, escaped and without white space before it.
    pub text: Option<String>,
    /// The section, the entry's number from 0 and its name, as far as there are any.
    pub entry: Option<String>,
    /// What the refusal's words leave open: a name, a number, what else is there, and what would be right.
    pub detail: Option<String>,
}

impl Fault {
    /// Finds it; `app` is the application that planning was asked for.
    pub fn find(text: &[u8], refusal: Refusal, app: Option<&str>) -> Fault {
        let mut fault = Fault {
            refusal,
            line: None,
            text: None,
            entry: None,
            detail: None,
        };
        match (refusal.section, Tree::read(text)) {
            (Section::Text, _) => {
                fault.line = line_in_text(text, &refusal);
                fault.detail = reading::of(text, &refusal);
            }
            (_, Some(tree)) => {
                let value = guilty(text, &tree, &refusal);
                fault.line = value.and_then(|value| lines::making(text, value));
                fault.entry = Some(entry(&tree, &refusal));
                fault.detail = detail::of(text, &tree, &refusal, app);
            }
            // not met: what is refused after the text has a tree
            (_, None) => {}
        }
        let standing = fault.line.and_then(|line| lines::standing(text, line));
        fault.text = standing.map(|line| shown::bytes(line.trim_ascii_start()));
        fault
    }
}

fn line_in_text(text: &[u8], refusal: &Refusal) -> Option<usize> {
    match refusal.number {
        2 => lines::broken(text),
        _ => Some(refusal.place as usize).filter(|line| *line > 0),
    }
}

// The value that is at fault: the field where it is there, else its entry, else the whole list. Of what is missing from
// the whole preset there is none.
fn guilty(text: &[u8], tree: &Tree, refusal: &Refusal) -> Option<usize> {
    let whole = tree.whole(refusal.section);
    if matches!(refusal.number, 70 | 80) {
        return None;
    }
    if of_whole(tree, refusal) {
        return whole;
    }
    let entry = tree.entry(refusal.section, refusal.place as usize)?;
    let key = match refusal.number {
        60 => clash::key(text, refusal),
        _ => fields::meant(tree, refusal, entry),
    };
    let field = key.and_then(|key| tree.field(entry, key));
    Some(field.unwrap_or(entry))
}

// `component 3 "ddr"`, or `components` for all of them.
fn entry(tree: &Tree, refusal: &Refusal) -> String {
    let (section, place) = (refusal.section, refusal.place as usize);
    let word = section.name();
    match section {
        Section::Board | Section::Image => word.into(),
        _ if of_whole(tree, refusal) => format!("{word}s"),
        _ => called(tree, section, place),
    }
}

fn first(words: &str) -> &str {
    words.split(' ').next().unwrap_or(words)
}

impl fmt::Display for Fault {
    fn fmt(&self, f: &mut fmt::Formatter) -> fmt::Result {
        if let Some(entry) = &self.entry {
            write!(f, "{entry}: ")?;
        }
        let (number, words) = (self.refusal.number, self.refusal.words());
        write!(f, "refused {number}: ")?;
        let Some(detail) = &self.detail else {
            return f.write_str(words);
        };
        match number {
            // a name goes on with these words, as in `unknown partition "bot"`
            43 | 51 | 58 | 60 | 65 | 70 => write!(f, "{words} {detail}"),
            // and with the first of these, as in `partition "calib" is locked`
            67 => write!(f, "{} {detail}", first(words)),
            _ => write!(f, "{words}: {detail}"),
        }
    }
}

impl std::error::Error for Fault {
    fn source(&self) -> Option<&(dyn std::error::Error + 'static)> {
        Some(&self.refusal)
    }
}
