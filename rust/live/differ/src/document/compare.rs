//! One whole text through the port, the original and the definitions, which have limits.
use super::original;
use crate::shorten::shortest_difference;
use replay::harness::ask::document::{Heard, Host};
use replay::harness::met::Met;
use replay::model::answer::document::shown;
use replay::model::document as model;

/// Reads texts on all sides and counts the refusals by number, 0 being none.
#[derive(Default)]
pub struct Judge {
    host: Host,
    /// Once there was a difference, every text is read in all sorts of rooms.
    pub(crate) differed: bool,
    pub met: Met,
}

impl Judge {
    /// Everything the port leaves against the definitions, its tree or number against the original.
    pub fn compare(&mut self, text: &[u8]) -> Result<(), String> {
        let told = self.both(text);
        self.differed |= told.is_err();
        told
    }

    fn both(&mut self, text: &[u8]) -> Result<(), String> {
        let want = model::read(text);
        let heard = if self.differed {
            self.host.judge_fully(text, &want)
        } else {
            self.host.judge(text, &want)
        };
        let heard = heard.map_err(|e| format!("port against definition, {e}"))?;
        let number = heard.as_ref().err().map_or(0, |&n| n);
        self.met.count(number);
        // the original has none of these limits, and no text that is not UTF-8 can be handed to it
        if matches!(number, 1 | 2 | 14..=17) {
            return Ok(());
        }
        let text = std::str::from_utf8(text).map_err(|e| format!("not refused with 2: {e}"))?;
        let theirs = original::read(text);
        if heard != theirs {
            let (got, want) = (said(&heard), said(&theirs));
            return Err(format!("port against original, {got} against {want}"));
        }
        Ok(())
    }

    /// Compares and, on a difference, panics with the shortest failing text.
    pub fn check(&mut self, text: &[u8]) {
        if let Err(first) = self.compare(text) {
            let (short, difference) = shortest_difference(text, first, |t| self.compare(t));
            panic!("{}: {difference}", short.escape_ascii());
        }
    }
}

fn said(heard: &Heard) -> String {
    match heard {
        Ok(root) => shown(root),
        Err(number) => number.to_string(),
    }
}
