//! The lines of a listing by 01 and W-203, from a preset and its plan.
use super::answer::records::{Preset, Refusal};
use super::plan::plan;
use super::records::{CHIPS, KINDS, LOCKS, MEDIA, named};
use super::validate::{self, end};
use preset::{AppSpec, BuildRequirement, ComponentSpec, ImagePlan, PartitionSpec};

/// One field of a line: a word that listings are written in, a number, a text of the preset, or nothing.
#[derive(Clone, Debug, PartialEq, Eq)]
pub enum Field {
    Word(String),
    Number(u64),
    Text(String),
    Absent,
}
use Field::{Absent, Number, Text, Word};

/// The fields of one line.
pub type Line = Vec<Field>;

/// The lines of a text whose boot chain is planned, or its refusal.
pub fn read(text: &[u8], name: &[u8]) -> Result<Vec<u8>, Refusal> {
    Ok(printed(&fields(text, name)?))
}

/// The fields of these lines.
pub fn fields(text: &[u8], name: &[u8]) -> Result<Vec<Line>, Refusal> {
    let answer = validate::read(text, name)?;
    let plan = plan(&answer.preset, None)?;
    Ok(listed(answer.text.made, &answer.preset, &plan))
}

/// Of a preset with so many values made, and its plan.
pub fn lines(made: usize, p: &Preset, plan: &ImagePlan) -> Vec<u8> {
    printed(&listed(made, p, plan))
}

fn listed(made: usize, p: &Preset, plan: &ImagePlan) -> Vec<Line> {
    let mut all = vec![ok(made, p)];
    all.extend(p.partitions.iter().map(part));
    all.extend(p.components.iter().map(comp));
    all.extend(p.apps.values().map(app));
    all.extend(plan.required_builds.iter().map(build));
    all.push(vec![word("stem"), text(&plan.stem)]);
    all
}

fn word(s: &str) -> Field {
    Word(s.into())
}

fn text(s: &str) -> Field {
    Text(s.into())
}

fn count(n: usize) -> Field {
    Number(n as u64)
}

fn ok(made: usize, p: &Preset) -> Line {
    let (chip, media) = (named(&CHIPS, p.board.chip), named(&MEDIA, p.image.media));
    let counts = [p.partitions.len(), p.components.len(), p.apps.len(), made];
    let mut line = vec![word("ok"), Word(chip), Word(media)];
    line.extend(counts.map(count));
    line
}

fn part(p: &PartitionSpec) -> Line {
    let lock = Word(named(&LOCKS, p.locked));
    let (start, end) = (Number(p.offset.into()), Number(end(p)));
    vec![word("part"), text(&p.name), start, end, lock]
}

fn reference(partition: &str) -> Field {
    if partition.is_empty() {
        Absent
    } else {
        text(partition)
    }
}

fn comp(c: &ComponentSpec) -> Line {
    let kind = Word(named(&KINDS, c.kind));
    vec![word("comp"), text(&c.name), kind, reference(&c.partition)]
}

fn app(a: &AppSpec) -> Line {
    let (package, name) = (text(&a.package), text(&a.name));
    vec![word("app"), package, name, reference(&a.partition)]
}

fn build(b: &BuildRequirement) -> Line {
    vec![word("build"), text(&b.package), count(b.features.len())]
}

/// Lines as they are printed: each ends in LF, with one space between fields.
pub fn printed(lines: &[Line]) -> Vec<u8> {
    let mut out = Vec::new();
    for line in lines {
        let shown: Vec<_> = line.iter().map(shown).collect();
        out.extend(shown.join(&b' '));
        out.push(b'\n');
    }
    out
}

fn shown(field: &Field) -> Vec<u8> {
    match field {
        Word(word) => word.clone().into_bytes(),
        Number(n) => n.to_string().into_bytes(),
        Text(text) => quoted(text.as_bytes()),
        Absent => b"-".into(),
    }
}

// The bytes that are written as escapes, each with what stands after its backslash.
const ESCAPES: [(u8, u8); 5] = [
    (b'"', b'"'),
    (b'\\', b'\\'),
    (b'\n', b'n'),
    (b'\t', b't'),
    (b'\r', b'r'),
];

fn quoted(text: &[u8]) -> Vec<u8> {
    let mut out = vec![b'"'];
    for &byte in text {
        match ESCAPES.iter().find(|(own, _)| *own == byte) {
            Some((_, letter)) => out.extend([b'\\', *letter]),
            None => out.push(byte),
        }
    }
    out.push(b'"');
    out
}
