//! Texts of one sort, and what compares them.
use crate::{document, records};
use replay::generators::random::Rng;
use replay::generators::records::random::name;
use replay::harness::met::Met;
use std::panic::{AssertUnwindSafe, catch_unwind};

/// What a run asks for.
pub trait Sides {
    /// A text, and what goes with it.
    fn make(&mut self, r: &mut Rng) -> Vec<u8>;

    fn compare(&mut self, text: &[u8]) -> Result<(), String>;

    /// From now on every text is read in all sorts of rooms.
    fn fully(&mut self) {}

    /// How often each refusal was met.
    fn met(&self) -> Met {
        Met::default()
    }

    /// What each side says of a text.
    fn answers(&self, _text: &[u8]) -> String {
        String::new()
    }
}

/// A side that panics differs too.
pub fn compared(sides: &mut dyn Sides, text: &[u8]) -> Result<(), String> {
    let told = catch_unwind(AssertUnwindSafe(|| sides.compare(text)));
    told.unwrap_or_else(|payload| {
        let said = payload.downcast_ref::<String>().map(String::as_str);
        let said = said.or(payload.downcast_ref::<&str>().copied());
        Err(format!("panicked: {}", said.unwrap_or("without a word")))
    })
}

impl Sides for document::compare::Judge {
    fn make(&mut self, r: &mut Rng) -> Vec<u8> {
        replay::generators::document::text(r)
    }

    fn compare(&mut self, text: &[u8]) -> Result<(), String> {
        document::compare::Judge::compare(self, text)
    }

    fn fully(&mut self) {
        self.differed = true;
    }

    fn met(&self) -> Met {
        self.met.clone()
    }
}

impl Sides for records::compare::Judge {
    fn make(&mut self, r: &mut Rng) -> Vec<u8> {
        self.name = name(r);
        (self.asked.random)(r)
    }

    fn compare(&mut self, text: &[u8]) -> Result<(), String> {
        let told = records::compare::Judge::compare(self, text);
        told.map_err(|e| format!("lent name \"{}\": {e}", self.name.escape_ascii()))
    }

    fn fully(&mut self) {
        self.differed = true;
    }

    fn met(&self) -> Met {
        self.met.clone()
    }
}

/// Texts that are UTF-8.
pub struct Plain {
    pub make: fn(&mut Rng) -> String,
    pub compare: fn(&str) -> Result<(), String>,
}

impl Sides for Plain {
    fn make(&mut self, r: &mut Rng) -> Vec<u8> {
        (self.make)(r).into_bytes()
    }

    // half a character, as the search for the shortest leaves it, is no difference
    fn compare(&mut self, text: &[u8]) -> Result<(), String> {
        std::str::from_utf8(text).map_or(Ok(()), self.compare)
    }
}
