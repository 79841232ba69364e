//! The recorded answers: of each kind picked texts and a fixed number of random ones.
use crate::picked::plain;
use crate::records::compare::{Answers, Question, answers};
use crate::{corners, document, listing, original, plan, records, validate, value};
use replay::generators::names;
use replay::generators::plan::keys::Answered;
use replay::generators::random::Rng;
use replay::harness::vector::document::{Parts, joined};
use replay::model::value as model;
use std::ops::RangeInclusive;

/// One file of recorded answers.
pub struct Record {
    /// Its name below vectors/.
    pub file: &'static str,
    // whose answers to which picked texts, for the header
    asked: fn() -> String,
    notes: &'static [&'static str],
    picked: fn() -> Vec<Parts>,
    seed: u64,
    random: usize,
    make: fn(&mut Rng) -> Vec<u8>,
    // of random texts; longer ones are left to the live tests
    lengths: RangeInclusive<usize>,
    // whether no limit is met that the original does not have, or the definitions stand in for it
    within: fn(&[u8]) -> bool,
    // one for each answer
    lines: fn(&Parts) -> Vec<String>,
}

// Of texts that the original is not asked about.
const OF_LOCKS: &str = "# The original does not know `locked`: a text with it in a partition is answered by \
                        rust/replay/src/model, with which the original agrees once the key is taken out.\n";

pub const TEXT: Record = Record {
    file: "text.txt",
    asked: || {
        let corners = corners::CORNERS.len();
        format!(
            "logical_lines (its lines numbered by running it on every prefix), strip_comment, \
             brackets_balanced, quotes_closed and str::trim to {corners} picked"
        )
    },
    notes: &[],
    picked: || plain(corners::CORNERS),
    seed: 7,
    random: 400,
    make: |r| replay::generators::random::text(r).into_bytes(),
    lengths: 4..=160,
    within: |_| true,
    lines: |t| {
        let t = utf8(t);
        vec![replay::harness::vector::text::write(
            &t,
            &original::answer(&t),
        )]
    },
};

pub const VALUE: Record = Record {
    file: "value.txt",
    asked: || {
        let corners = value::corners::CORNERS.len();
        format!(
            "parse_int, unquote (the text after an opening quote), split_key and parse_value \
             to {corners} picked"
        )
    },
    notes: &[],
    picked: || plain(value::corners::CORNERS),
    seed: 11,
    random: 400,
    make: |r| replay::generators::value::text(r).into_bytes(),
    lengths: 2..=120,
    // neither 14 nor 15 nor 16
    within: |s| model::key(s) != Err(15) && !matches!(model::value(s), Err(14 | 16)),
    lines: |t| {
        let t = utf8(t);
        let answer = value::original::answer(&t);
        vec![replay::harness::vector::value::write(&t, &answer)]
    },
};

pub const DOCUMENT: Record = Record {
    file: "document.txt",
    asked: || {
        let (corners, limits) = (
            document::corners::CORNERS.len(),
            document::corners::LIMITS.len(),
        );
        format!(
            "parse, its tree or the number of its message, to {corners} picked texts, {limits} \
             around the limits, the presets of presets/"
        )
    },
    notes: &[
        "# Line, count of values and store, and the numbers 1, 2, 14, 15 and 16, which the \
         original does not have, are those of rust/replay/src/model/document.rs.\n",
    ],
    picked: document::corners::picked,
    seed: 13,
    random: 300,
    make: replay::generators::document::text,
    lengths: 8..=240,
    within: |_| true,
    lines: |t| {
        let answer = document::original::answer(&joined(t));
        vec![replay::harness::vector::document::write(t, &answer)]
    },
};

pub const RECORDS: Record = Record {
    file: "records.txt",
    asked: || {
        let (corners, limits) = (
            records::corners::CORNERS.len(),
            records::corners::LIMITS.len(),
        );
        let faults = replay::generators::records::edits::faults().len();
        format!(
            "Preset::parse, its records or the number of its message, to {corners} picked presets, \
             {limits} around the limits, the presets of presets/, {faults} with one fault"
        )
    },
    notes: &[
        "# Section, place and count of values, and the numbers 1, 2, 14, 15, 16 and 25, which the \
         original does not have, are those of rust/replay/src/model/records.rs.\n",
        OF_LOCKS,
    ],
    picked: records::corners::picked,
    seed: 17,
    random: 250,
    make: replay::generators::records::random::text,
    lengths: 20..=500,
    within: |_| true,
    lines: |t| preset_lines(&records::compare::RECORDS, t),
};

pub const VALIDATE: Record = Record {
    file: "validate.txt",
    asked: || {
        let corners = validate::corners::CORNERS.len() + validate::corners::locked().len();
        let faults = 2 * replay::generators::validate::faults::FAULTS.len();
        format!(
            "Preset::parse and validate, the records or the number of the message, to {corners} \
             picked presets, the presets of presets/, {faults} with one fault"
        )
    },
    notes: &[
        "# Section, place and count of values are those of rust/replay/src/model/validate.rs, which \
         the names in messages bear out.\n",
        OF_LOCKS,
    ],
    picked: validate::corners::picked,
    seed: 19,
    random: 20,
    make: replay::generators::validate::random::text,
    lengths: 150..=600,
    within: |_| true,
    lines: |t| preset_lines(&validate::compare::VALIDATE, t),
};

pub const PLAN: Record = Record {
    file: "plan.txt",
    asked: || {
        let corners = plan::corners::CORNERS.len();
        format!(
            "Preset::parse and plan, the plan or the number of the message, for the boot chain, every \
             declared application and another key, to {corners} picked presets, the presets of presets/"
        )
    },
    notes: &[
        "# Count of values is that of rust/replay/src/model/plan.rs, as is what is told of a key that is \
         not UTF-8, and of presets that break a rule section and place.\n",
        OF_LOCKS,
    ],
    picked: plan::corners::picked,
    seed: 23,
    random: 40,
    make: replay::generators::plan::random::text,
    lengths: 150..=700,
    within: |_| true,
    lines: plan_lines,
};

pub const LISTING: Record = Record {
    file: "listing.txt",
    asked: || {
        let (corners, odd) = (
            listing::corners::CORNERS.len(),
            listing::corners::odd().len(),
        );
        format!(
            "Preset::parse and plan, the lines that 01 prints of preset and plan, with names in quotes, or the number \
             of the message, to {corners} picked presets, {odd} with odd names, those of plan.txt and validate.txt, \
             the limits of document.txt and records.txt"
        )
    },
    notes: &[
        "# Count of values is that of rust/replay/src/model/document.rs; of refusals section and place, and the \
         numbers 1, 2, 14, 15, 16 and 25, are those of rust/replay/src/model/validate.rs.\n",
        OF_LOCKS,
    ],
    picked: listing::corners::picked,
    seed: 29,
    random: 350,
    make: replay::generators::listing::text,
    lengths: 20..=600,
    within: |_| true,
    lines: |t| {
        let text = joined(t);
        let name = names::nth_lent(text.len());
        let listed = listing::compare::listed(&text, name);
        let listed = listed.unwrap_or_else(|e| panic!("{}: {e}", text.escape_ascii()));
        vec![replay::harness::vector::listing::write(
            name,
            t,
            &listed.told,
        )]
    },
};

// The name that is lent goes by the text.
fn lent(text: &[u8]) -> &'static [u8] {
    let names = replay::generators::records::random::NAMES;
    names[text.len() % names.len()]
}

// All answers to a question about a preset.
fn told(asked: &Question, text: &[u8]) -> Answers {
    let answers = answers(asked, text, lent(text));
    let answers = answers.unwrap_or_else(|e| panic!("{}: {e}", text.escape_ascii()));
    answers.told
}

fn preset_lines(asked: &Question, t: &Parts) -> Vec<String> {
    let text = joined(t);
    let told = told(asked, &text);
    let recorded = told.read.map(|answer| (answer.text.made, answer.preset));
    vec![replay::harness::vector::records::write(
        lent(&text),
        t,
        &recorded,
    )]
}

// Of the keys that are not declared, one.
fn plan_lines(t: &Parts) -> Vec<String> {
    let text = joined(t);
    let Answers { read, all } = told(&plan::compare::PLAN, &text);
    let undeclared = |one: &Answered| one.refusal.is_some_and(|e| e.number == 80);
    let (others, mut told): (Vec<_>, Vec<_>) = all.into_iter().partition(undeclared);
    let count = others.len().max(1);
    told.extend(others.into_iter().nth(text.len() % count));
    let line = |one: Answered| {
        let planned = one.told(&read).into_owned().map(|answer| {
            let plan = replay::model::plan::plan(&answer.preset, one.selected.as_deref());
            (answer.text.made, plan.expect("planned"))
        });
        replay::harness::vector::plan::write(lent(&text), t, &one.selected, &planned)
    };
    told.into_iter().map(line).collect()
}

/// All files.
pub const ALL: [Record; 7] = [TEXT, VALUE, DOCUMENT, RECORDS, VALIDATE, PLAN, LISTING];

fn utf8(text: &Parts) -> String {
    String::from_utf8(joined(text)).expect("picked and random texts of this kind are UTF-8")
}

impl Record {
    /// The file's contents.
    pub fn render(&self) -> String {
        let mut out = self.header();
        for text in self.texts() {
            let whole = joined(&text);
            assert!((self.within)(&whole), "{}: a limit", whole.escape_ascii());
            let lines = (self.lines)(&text);
            out.extend(lines.into_iter().map(|line| line + "\n"));
        }
        out
    }

    fn header(&self) -> String {
        let (asked, random, seed) = ((self.asked)(), self.random, self.seed);
        let notes = self.notes.concat();
        format!(
            "# Answers of the original's {asked} and {random} random texts (seed {seed}); made, \
             and made again, by `cargo run --release --bin record` in rust/live.\n{notes}"
        )
    }

    /// The recorded texts, in their order.
    pub fn texts(&self) -> impl Iterator<Item = Parts> {
        let mut r = Rng::new(self.seed);
        let random = std::iter::repeat_with(move || (self.make)(&mut r));
        let kept = |t: &Vec<u8>| self.lengths.contains(&t.len()) && (self.within)(t);
        let random = random.filter(kept).take(self.random);
        let picked = (self.picked)().into_iter();
        picked.chain(random.map(|text| vec![(text, 1)]))
    }
}
