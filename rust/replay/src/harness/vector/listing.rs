//! The form of the recorded listings: one lent name, one preset and what is printed of it to a line.
//!
//! `NAME TEXT ok WRITTEN LINES` or `NAME TEXT refused NUMBER SECTION PLACE`. A text is as in `document`; the
//! lines stand in one pair of quotes, and are so many bytes.
use super::document::{Parts, parts, quoted};
use super::line::Reader;
use super::records::told;
use crate::harness::ask::listing::Lines;

/// One line of the file, without its end.
pub fn write(name: &[u8], text: &Parts, answer: &Lines) -> String {
    let counted = |lines: &Vec<u8>| (lines.len(), lines.clone());
    let answer = told(&answer.as_ref().map(counted).map_err(|e| *e), |lines| {
        quoted(lines)
    });
    format!("{} {} {answer}", quoted(name), parts(text))
}

/// The name, the text and the answer of one line.
pub fn read(line: &str) -> Result<(Vec<u8>, Parts, Lines), String> {
    let mut r = Reader(line);
    let (name, text) = (r.bytes()?, r.parts()?);
    let answer = r.told(Reader::bytes)?;
    Ok((name, text, answer.map(|(_, lines)| lines)))
}
