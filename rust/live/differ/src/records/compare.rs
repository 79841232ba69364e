//! One preset through the port, the original and the definitions, which have limits.
use super::original::{self, Told};
use crate::locks::{Both, both, for_lock, nothing_else};
use crate::shorten::shortest_difference;
use preset::Preset;
use replay::generators::plan::keys::Answered;
use replay::generators::random::{Rng, turns};
use replay::generators::records::random;
use replay::harness::ask::records::{Host, difference};
use replay::harness::met::Met;
use replay::model::answer::records::{Read, Refusal};
use replay::model::records::{self as model, LIMITS, Limits, UNLIMITED};
use std::thread;

/// What is asked about presets: the definitions and the original.
#[derive(Clone, Copy)]
pub struct Question {
    pub defined: fn(&[u8], &[u8], &Limits) -> Read,
    pub original: fn(&str, &[u8]) -> Result<Preset, Told>,
    /// The numbers that it adds to those of texts.
    pub numbers: &'static [u32],
    /// Presets to ask about.
    pub random: fn(&mut Rng) -> Vec<u8>,
    /// What is told for all that may be selected, where a preset is answered like this.
    pub selected: fn(&Read) -> Vec<Answered>,
    pub agreed: Agreed,
}

/// Holds what is told of a text and a lent name against the original.
pub type Agreed = fn(&[u8], &[u8], &Answers) -> Result<(), String>;

/// What is told of a preset, and for all that may be selected.
pub struct Answers {
    pub read: Read,
    pub all: Vec<Answered>,
}

/// Their records.
pub const RECORDS: Question = Question {
    defined: model::read_within,
    original: original::read,
    numbers: &[20, 21, 22, 23, 24, 25],
    random: random::text,
    selected: |read| vec![Answered::boot_chain(read)],
    agreed: |_, _, _| Ok(()),
};

/// What the definitions say of a preset without locks, once the original says the same where it can.
pub(crate) fn answer(asked: &Question, text: &[u8], name: &[u8]) -> Result<Read, String> {
    let defined = (asked.defined)(text, name, &LIMITS);
    let number = number(&defined);
    // the original has none of these limits, and no text that is not UTF-8 can be handed to it
    if matches!(number, 1 | 2 | 14..=17) {
        return Ok(defined);
    }
    let text = std::str::from_utf8(text).map_err(|e| format!("not refused with 2: {e}"))?;
    let theirs = (asked.original)(text, name);
    // nor has it a limit on lists: it reads on
    let agreed = match number {
        25 => {
            let unlimited = (asked.defined)(text.as_bytes(), name, &UNLIMITED);
            same(&unlimited, &theirs)
        }
        _ => same(&defined, &theirs),
    };
    agreed.map_err(|e| format!("definition against original, {e}"))?;
    Ok(defined)
}

/// What the definitions say of a preset and for all that may be selected, once the original says the same where it can.
pub fn answers(asked: &Question, text: &[u8], name: &[u8]) -> Result<Both<Answers>, String> {
    both(
        text,
        |text| {
            let told = with_selected(asked, answer(asked, text, name)?);
            (asked.agreed)(text, name, &told).map(|()| told)
        },
        |text| with_selected(asked, (asked.defined)(text, name, &LIMITS)),
    )
}

fn with_selected(asked: &Question, read: Read) -> Answers {
    let all = (asked.selected)(&read);
    Answers { read, all }
}

fn number(read: &Read) -> u32 {
    read.as_ref().err().map_or(0, |refusal| refusal.number)
}

fn same(defined: &Read, theirs: &Result<Preset, Told>) -> Result<(), String> {
    let defined = defined.as_ref().map(|answer| &answer.preset);
    let (defined, theirs) = (defined.map_err(|e| *e), theirs.as_ref().map_err(|e| *e));
    agree(defined, theirs, difference)
}

/// Every field of what is answered, or the number, and the entry where the message names one.
pub fn agree<T>(
    defined: Result<&T, Refusal>,
    theirs: Result<&T, Told>,
    difference: fn(&T, &T) -> Option<String>,
) -> Result<(), String> {
    match (defined, theirs) {
        (Ok(ours), Ok(theirs)) => difference(ours, theirs).map_or(Ok(()), Err),
        (Err(ours), Err(theirs)) => {
            let place = (ours.section, ours.place);
            let same = ours.number == theirs.number && theirs.entry.is_none_or(|e| e == place);
            same.then_some(())
                .ok_or(format!("{ours:?} against {theirs:?}"))
        }
        (Ok(_), Err(theirs)) => Err(format!("accepted against {theirs:?}")),
        (Err(ours), Ok(_)) => Err(format!("{ours:?} against accepted")),
    }
}

/// Asks about presets on all sides and counts the refusals by number, 0 being none.
pub struct Judge {
    pub asked: Question,
    host: Host,
    /// The name that is lent.
    pub name: Vec<u8>,
    /// Once there was a difference, every preset is read in all sorts of rooms.
    pub(crate) differed: bool,
    pub met: Met,
}

impl Judge {
    pub fn records() -> Judge {
        Judge::new(RECORDS, Host::default())
    }

    pub(crate) fn new(asked: Question, host: Host) -> Judge {
        Judge {
            asked,
            host,
            name: b"board".to_vec(),
            differed: false,
            met: Met::default(),
        }
    }

    /// The definitions against the original, and everything the port leaves against the definitions; where a preset has
    /// locks, all of that without them, and the port against the definitions with them.
    pub fn compare(&mut self, text: &[u8]) -> Result<(), String> {
        let told = self.all(text);
        self.differed |= told.is_err();
        told
    }

    fn all(&mut self, text: &[u8]) -> Result<(), String> {
        let Both { told, without } = answers(&self.asked, text, &self.name)?;
        self.held(text, &told)?;
        for one in &told.all {
            self.met.count(one.refusal.map_or(0, |e| e.number));
        }
        let Some((open, without)) = without else {
            return Ok(());
        };
        self.met
            .leave_out(for_lock(&told.read, &without.read).map(|e| e.number));
        nothing_else(&told.read, &without.read)?;
        let held = self.held(&open, &without);
        held.map_err(|e| format!("without its locks, {e}"))
    }

    fn held(&mut self, text: &[u8], told: &Answers) -> Result<(), String> {
        let Answers { read, all } = told;
        for one in all {
            let held = self
                .host
                .selecting(one, text, &self.name, read, self.differed);
            held.map_err(|e| format!("port against definition, {e}"))?;
        }
        Ok(())
    }

    /// Compares and, on a difference, panics with the shortest failing preset.
    pub fn check(&mut self, text: &[u8]) {
        if let Err(first) = self.compare(text) {
            let (short, difference) = shortest_difference(text, first, |t| self.compare(t));
            let (short, name) = (short.escape_ascii(), self.name.escape_ascii());
            panic!("{short}\nlent name {name}: {difference}");
        }
    }

    /// One of its numbers that was met less often.
    pub fn seldom(&self, least: usize) -> Option<u32> {
        let numbers = self.asked.numbers.iter().copied();
        self.met.seldom(numbers, least)
    }

    /// Checks so many random presets, each with a name to lend.
    pub fn check_random(&mut self, seed: u64, count: usize) {
        let mut r = Rng::new(seed);
        for _ in 0..count {
            self.name = random::name(&mut r);
            self.check(&(self.asked.random)(&mut r));
        }
    }
}

/// Checks so many random presets, side by side in parts with a seed each; all numbers of the
/// question are met often, and presets with locks and without.
pub fn check_random(what: &str, judge: fn() -> Judge, seed: u64, count: usize) -> Met {
    const PARTS: u64 = 4;
    const LEAST: usize = 100;
    let part = move |i| {
        let mut judge = judge();
        judge.check_random(seed + i, turns(count) / PARTS as usize);
        judge.met
    };
    let parts: Vec<_> = (0..PARTS).map(|i| thread::spawn(move || part(i))).collect();
    let mut all = judge();
    for part in parts {
        all.met.add(&part.join().expect("no difference"));
    }
    all.met.print(what);
    assert_eq!(all.seldom(LEAST), None, "met too seldom");
    let often = turns(count) / 6..turns(count) / 3;
    let left_out = all.met.left_out();
    assert!(often.contains(&left_out), "{left_out} with locks");
    all.met
}
