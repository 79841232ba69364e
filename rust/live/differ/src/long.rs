//! The long run: texts of all sorts, and everything that is compared of one.
pub mod answers;

use crate::run::Run;
use crate::run::sides::Sides;
use crate::{document, listing, plan, records, validate};
use replay::generators::random::Rng;
use replay::generators::{mixed, names};
use replay::harness::met::Met;

/// A text through every function that starts from one.
pub struct All {
    name: Vec<u8>,
    documents: document::compare::Judge,
    presets: [records::compare::Judge; 3],
    listings: listing::compare::Judge,
}

// What the functions of `presets` are called.
const CALLED: [&str; 3] = ["preset_read", "preset_validate", "preset_plan"];

impl Default for All {
    fn default() -> Self {
        All {
            name: Vec::new(),
            documents: Default::default(),
            presets: [
                records::compare::Judge::records(),
                validate::compare::judge(),
                plan::compare::judge(),
            ],
            listings: Default::default(),
        }
    }
}

impl Sides for All {
    fn make(&mut self, r: &mut Rng) -> Vec<u8> {
        self.name = names::lent(r);
        mixed::text(r)
    }

    fn compare(&mut self, text: &[u8]) -> Result<(), String> {
        let told = self.documents.compare(text);
        told.map_err(|e| format!("document_read: {e}"))?;
        for (judge, called) in self.presets.iter_mut().zip(CALLED) {
            judge.name.clone_from(&self.name);
            judge.compare(text).map_err(|e| format!("{called}: {e}"))?;
        }
        self.listings.name.clone_from(&self.name);
        let told = self.listings.compare(text);
        told.map_err(|e| format!("preset_listing: {e}"))
    }

    fn fully(&mut self) {
        self.documents.fully();
        self.presets.iter_mut().for_each(Sides::fully);
        self.listings.fully();
    }

    // Those of plans: every number is theirs too.
    fn met(&self) -> Met {
        self.presets[2].met()
    }

    fn answers(&self, text: &[u8]) -> String {
        answers::answers(text, &self.name)
    }
}

// From so many texts on every number is met, by far.
const MANY: u64 = 100_000;

/// Whether every number of 01 was met, where there were many texts.
pub fn enough(run: &Run, met: &Met) -> Result<(), String> {
    let unmet = met.unmet();
    if run.count < MANY || unmet.is_empty() {
        Ok(())
    } else {
        Err(format!("never met: {unmet:?}"))
    }
}
