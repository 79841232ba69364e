//! One preset's listing by the port, the original and the definitions.
use super::original;
use crate::locks::{Both, both, for_lock};
use crate::plan::compare::PLAN;
use crate::records::compare::answer;
use crate::run::sides::Sides;
use crate::shorten::shortest_difference;
use replay::generators::random::Rng;
use replay::generators::{listing as random, names};
use replay::harness::ask::listing::{Host, Lines, rows};
use replay::harness::ask::records::differing;
use replay::harness::met::Met;
use replay::model;

/// The lines by the definitions, once the original has the same where it can.
pub fn listed(text: &[u8], name: &[u8]) -> Result<Both<Lines>, String> {
    let defined = |text: &[u8]| model::listing::read(text, name);
    both(text, |text| agreed(text, name), defined)
}

// Of a preset without locks.
fn agreed(text: &[u8], name: &[u8]) -> Result<Lines, String> {
    let answer = match answer(&PLAN, text, name)? {
        Ok(answer) => answer,
        Err(refusal) => return Ok(Err(refusal)),
    };
    let plan = model::plan::plan(&answer.preset, None);
    let plan = plan.map_err(|e| format!("no boot chain: {e:?}"))?;
    let lines = model::listing::lines(answer.text.made, &answer.preset, &plan);
    let text = std::str::from_utf8(text).map_err(|e| format!("not refused with 2: {e}"))?;
    match original::read(text, name, answer.text.made) {
        Ok(theirs) if theirs.as_bytes() == lines => Ok(Ok(lines)),
        Ok(theirs) => {
            let difference = differing(&rows(&lines), &rows(theirs.as_bytes()));
            Err(format!("definition against original, {difference}"))
        }
        Err(told) => Err(format!("accepted against {told:?}")),
    }
}

/// Lists presets on all sides and counts the refusals by number, 0 being none.
#[derive(Default)]
pub struct Judge {
    host: Host,
    /// The name that is lent.
    pub name: Vec<u8>,
    differed: bool,
    pub met: Met,
}

impl Judge {
    pub fn compare(&mut self, text: &[u8]) -> Result<(), String> {
        let told = self.all(text);
        self.differed |= told.is_err();
        told
    }

    fn all(&mut self, text: &[u8]) -> Result<(), String> {
        let Both { told, without } = listed(text, &self.name)?;
        self.met.count(told.as_ref().err().map_or(0, |e| e.number));
        self.held(text, &told)?;
        let Some((open, without)) = without else {
            return Ok(());
        };
        self.met
            .leave_out(for_lock(&told, &without).map(|e| e.number));
        let held = self.held(&open, &without);
        held.map_err(|e| format!("without its locks, {e}"))
    }

    fn held(&mut self, text: &[u8], want: &Lines) -> Result<(), String> {
        let told = if self.differed {
            self.host.judge_fully(text, &self.name, want)
        } else {
            self.host.judge(text, &self.name, want)
        };
        told.map_err(|e| format!("port against definition, {e}"))
    }

    /// Compares and, on a difference, panics with the shortest failing preset.
    pub fn check(&mut self, text: &[u8]) {
        if let Err(first) = self.compare(text) {
            let (short, difference) = shortest_difference(text, first, |t| self.compare(t));
            let (short, name) = (short.escape_ascii(), self.name.escape_ascii());
            panic!("{short}\nlent name {name}: {difference}");
        }
    }
}

impl Sides for Judge {
    fn make(&mut self, r: &mut Rng) -> Vec<u8> {
        self.name = names::lent(r);
        random::text(r)
    }

    fn compare(&mut self, text: &[u8]) -> Result<(), String> {
        let told = Judge::compare(self, text);
        told.map_err(|e| format!("lent name \"{}\": {e}", self.name.escape_ascii()))
    }

    fn fully(&mut self) {
        self.differed = true;
    }

    fn met(&self) -> Met {
        self.met.clone()
    }
}
