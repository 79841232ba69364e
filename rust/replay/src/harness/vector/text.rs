//! The form of the recorded answers: one text and its answer to a line.
//!
//! `TEXT trim FROM END kept N scan STATE OPENS CLOSES laid LAID ok` or `refused NUMBER PLACE`,
//! then each joined line as its number and its text. Texts stand in quotes.
use super::line::{Reader, quote};
use crate::model::answer::text::{Answer, Joined, Refusal};
use std::fmt::Write;

/// One line of the file, without its end.
pub fn write(text: &str, a: &Answer) -> String {
    let (text, laid) = (quote(text), quote(&a.laid));
    let ((from, end), kept, (state, opens, closes)) = (a.trim, a.kept, a.scan);
    let mut out =
        format!("{text} trim {from} {end} kept {kept} scan {state} {opens} {closes} laid {laid} ");
    match a.refusal {
        None => out.push_str("ok"),
        Some((number, place)) => {
            write!(out, "refused {number} {place}").expect("a String takes all")
        }
    }
    for (line, joined) in &a.lines {
        write!(out, " {line} {}", quote(joined)).expect("a String takes all");
    }
    out
}

/// The text and the answer of one line.
pub fn read(line: &str) -> Result<(String, Answer), String> {
    let mut r = Reader(line);
    let text = r.quoted()?;
    r.named("trim")?;
    let trim = (r.number()?, r.number()?);
    r.named("kept")?;
    let kept = r.number()?;
    r.named("scan")?;
    let scan = (r.number()?, r.number()?, r.number()?);
    r.named("laid")?;
    let laid = r.quoted()?;
    let refusal = r.refusal()?;
    let lines = r.lines()?;
    let answer = Answer {
        trim,
        kept,
        scan,
        laid,
        lines,
        refusal,
    };
    Ok((text, answer))
}

impl Reader<'_> {
    fn refusal(&mut self) -> Result<Option<Refusal>, String> {
        match self.word() {
            "ok" => Ok(None),
            "refused" => Ok(Some((self.number()?, self.number()?))),
            word => Err(format!("{word:?} stands in place of ok or refused")),
        }
    }

    fn lines(&mut self) -> Result<Vec<Joined>, String> {
        let mut out = Vec::new();
        while !self.0.is_empty() {
            out.push((self.number()?, self.quoted()?));
        }
        Ok(out)
    }
}
