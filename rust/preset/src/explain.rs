//! docs/REFUSALS.md cut into its entries: what a refusal means, how it is shown, how it is mended.
//!
//! ```
//! let entry = preset::explain::entry(58).unwrap();
//! assert_eq!(entry.words, "unknown partition");
//! assert!(entry.preset.contains("partition = \"bot\""));
//! let told = "preset.toml:8: component 0 \"loader\": refused 58: unknown partition \"bot\"";
//! assert!(entry.to_string().contains(told));
//! ```
use crate::fault::Fault;
use crate::schema::{Preset, Selection};
use std::fmt;

const PAPER: &str = include_str!("../../../docs/REFUSALS.md");

// Lines on a terminal end here; an example's lines stay as they are.
const WIDTH: usize = 78;

/// A preset that is refused, as the document writes it, and what is told of it.
#[derive(Clone, Copy, Debug, PartialEq, Eq)]
pub struct Example {
    /// What stands after `toml` in its fence: `made` where the notation for made texts is used.
    pub tag: &'static str,
    /// The preset.
    pub preset: &'static str,
    /// What is told of it.
    pub told: &'static str,
}

impl Example {
    /// The bytes that it stands for: in the notation for made texts a line may stand for many, and `\x` and two digits
    /// for a byte.
    pub fn text(&self) -> Vec<u8> {
        match self.tag {
            "made" => self.preset.lines().flat_map(made).collect(),
            _ => self.preset.into(),
        }
    }

    /// The application that a plan was asked for with.
    pub fn app(&self) -> Option<&'static str> {
        let (_, rest) = self.told.split_once(" with --app ")?;
        rest.split(' ').next()
    }

    /// What the command says of it where it is the file `preset.toml`: `check`, or where an application is asked for,
    /// `plan`. None where less was lent than the command lends.
    pub fn said(&self) -> Option<String> {
        let (text, app) = (self.text(), self.app());
        (!self.told.contains(" with a store of ")).then_some(())?;
        let selection = app.map_or(Selection::Bootloader, |key| Selection::App(key.into()));
        let refusal = Preset::plan(&text, b"preset", &selection).err()?;
        let fault = Fault::find(&text, refusal, app);
        let line = fault.line.map_or(String::new(), |line| format!(":{line}"));
        Some(format!("preset.toml{line}: {fault}"))
    }
}

// A line of a made text, as often as it says itself.
fn made(line: &str) -> Vec<u8> {
    let noted = line.strip_suffix(" times");
    let noted = noted.and_then(|line| line.rsplit_once(" # "));
    let (line, count) = noted.unwrap_or((line, "1"));
    let own = [bytes(line.trim_end()), vec![b'\n']].concat();
    own.repeat(count.parse().unwrap_or(1))
}

fn bytes(line: &str) -> Vec<u8> {
    let mut parts = line.split("\\x");
    let first = parts.next().unwrap_or_default().as_bytes().to_vec();
    parts.fold(first, |mut out, part| {
        let (digits, after) = part.split_at_checked(2).unwrap_or((part, ""));
        out.extend(u8::from_str_radix(digits, 16));
        out.extend(after.as_bytes());
        out
    })
}

/// What the document says of a number; it shows itself as `preset explain` prints it, with what the command says of
/// each example.
#[derive(Clone, Debug, PartialEq, Eq)]
pub struct Entry {
    /// The refusal's number.
    pub number: u32,
    /// What messages call it.
    pub words: &'static str,
    /// When it is given.
    pub meaning: &'static str,
    /// The first example's.
    pub preset: &'static str,
    /// The first example's.
    pub told: &'static str,
    /// How it is put right, in words.
    pub mending: &'static str,
    /// Every example, the first too.
    pub examples: Vec<Example>,
    /// The first example put right.
    pub mended: Option<&'static str>,
}

/// Every entry, in the document's order.
pub fn entries() -> Vec<Entry> {
    let chapters = PAPER.split("\n## ").skip(1);
    chapters.filter_map(cut).collect()
}

/// The entry of a refusal number.
pub fn entry(number: u32) -> Option<Entry> {
    entries().into_iter().find(|e| e.number == number)
}

/// The few words that name a refusal in a message.
pub fn words(number: u32) -> Option<&'static str> {
    entry(number).map(|e| e.words)
}

// A chapter that is not laid out as the document promises is no entry; the tests count them.
fn cut(chapter: &'static str) -> Option<Entry> {
    let (head, body) = chapter.split_once("\n\n")?;
    let (number, words) = head.split_once(": ")?;
    let (body, end) = body.split_once("\n\nMend: ")?;
    let (meaning, shown) = body.split_once("\n\n```toml")?;
    let examples: Option<Vec<_>> = shown.split("\n\n```toml").map(example).collect();
    let examples = examples?;
    let first = *examples.first()?;
    let (mending, mended) = match end.split_once("\n\nMended:\n\n```toml\n") {
        Some((mending, block)) => (mending, Some(block.split_once("```")?.0)),
        None => (end.trim_end(), None),
    };
    Some(Entry {
        number: number.parse().ok()?,
        words,
        meaning,
        preset: first.preset,
        told: first.told,
        mending,
        examples,
        mended,
    })
}

// What follows a fence's `toml`, up to the next example.
fn example(shown: &'static str) -> Option<Example> {
    let (tag, rest) = shown.split_once('\n')?;
    let (preset, told) = rest.split_once("```\n\nTold: ")?;
    Some(Example {
        tag: tag.trim_start(),
        preset,
        told,
    })
}

impl fmt::Display for Entry {
    fn fmt(&self, f: &mut fmt::Formatter) -> fmt::Result {
        writeln!(f, "{}: {}\n", self.number, self.words)?;
        paragraphs(f, self.meaning)?;
        for example in &self.examples {
            indented(f, example.preset)?;
            told(f, example)?;
        }
        let mend = format!("Mend: {}", self.mending);
        let Some(mended) = self.mended else {
            return f.write_str(wrapped(&mend).trim_end());
        };
        paragraphs(f, &mend)?;
        writeln!(f, "Mended:\n")?;
        f.write_str(block(mended).trim_end())
    }
}

// What the command says of it, unbroken as there, and the numbers.
fn told(f: &mut fmt::Formatter, example: &Example) -> fmt::Result {
    match example.said() {
        None => paragraphs(f, &format!("Told: {}", example.told)),
        Some(said) => {
            writeln!(f, "Told:\n")?;
            indented(f, &said)?;
            paragraphs(f, &format!("In numbers: {}", example.told))
        }
    }
}

fn paragraphs(f: &mut fmt::Formatter, text: &str) -> fmt::Result {
    writeln!(f, "{}", wrapped(text))
}

fn indented(f: &mut fmt::Formatter, preset: &str) -> fmt::Result {
    if preset.is_empty() {
        Ok(())
    } else {
        writeln!(f, "{}", block(preset))
    }
}

fn block(preset: &str) -> String {
    preset.lines().map(|l| format!("    {l}\n")).collect()
}

// Each paragraph of a text in lines of the terminal, a blank line between two of them.
fn wrapped(text: &str) -> String {
    let each: Vec<_> = text.split("\n\n").map(filled).collect();
    each.join("\n")
}

// The words of a paragraph, as many in a line as it takes; a longer word has a line of its own.
fn filled(paragraph: &str) -> String {
    let (mut out, mut column) = (String::new(), 0);
    for word in paragraph.split_whitespace() {
        let length = word.chars().count();
        let fits = column > 0 && column + 1 + length <= WIDTH;
        let between = if fits {
            " "
        } else if column == 0 {
            ""
        } else {
            "\n"
        };
        column = if fits { column + 1 + length } else { length };
        out.push_str(between);
        out.push_str(word);
    }
    out + "\n"
}
