//! Random presets, right and wrong, damaged copies of the examples, and names to lend.
use super::draft::{Block, Draft, Edit};
use super::edits::wholes;
use super::spelling::{SECTIONS, SORTS, Section, Sort, spellings};
use crate::generators::document::{damage, lines};
use crate::generators::random::{Rng, bytes};
use std::sync::LazyLock;

/// The presets of the repository.
pub const EXAMPLES: [&str; 3] = [
    include_str!("../../../../../presets/example.toml"),
    include_str!("../../../../../presets/stage-d13x.toml"),
    include_str!("../../../../../presets/tour-d21x.toml"),
];

static WHOLES: LazyLock<Vec<Edit>> = LazyLock::new(wholes);

/// A preset: mostly drawn, else a copy of an example with lines changed; seldom damaged further.
pub fn text(r: &mut Rng) -> Vec<u8> {
    let mut text = match r.below(40) {
        0 => changed(r),
        _ => draft(r).text().into_bytes(),
    };
    if r.below(12) == 0 {
        damage(r, &mut text);
    }
    text
}

// An example, two thirds of them with one to three changes.
pub(crate) fn changed(r: &mut Rng) -> Vec<u8> {
    let mut text = r.pick(&EXAMPLES).as_bytes().to_vec();
    for _ in 0..r.below(4) {
        match r.below(4) {
            0 => lines(r, &mut text),
            _ => assigned(r, &mut text),
        }
    }
    text
}

// One assignment with another value or another key.
fn assigned(r: &mut Rng, text: &mut Vec<u8>) {
    let mut all: Vec<_> = text.split_inclusive(|&b| b == b'\n').collect();
    let places: Vec<_> = (0..all.len()).filter(|&i| key(all[i]).is_some()).collect();
    if places.is_empty() {
        return;
    }
    let at = places[r.below(places.len())];
    let held = key(all[at]).expect("it has one");
    let line = match r.below(4) {
        0 => [any_key(r).as_bytes(), &all[at][held.len()..]].concat(),
        _ => [held, any_rest(r).as_bytes(), b"\n"].concat(),
    };
    all[at] = &line;
    *text = all.concat();
}

// What stands before a line's `=`, trimmed; none where the line is no plain assignment.
fn key(line: &[u8]) -> Option<&[u8]> {
    let end = line.iter().position(|&b| b == b'=')?;
    let key = line[..end].trim_ascii();
    let plain = |b: &u8| b.is_ascii_lowercase() || *b == b'_';
    (!key.is_empty() && key.iter().all(plain)).then_some(key)
}

fn any_key(r: &mut Rng) -> &'static str {
    let fields = SECTIONS[r.below(SECTIONS.len())].fields();
    fields[r.below(fields.len())].0
}

fn any_rest(r: &mut Rng) -> &'static str {
    let all = &spellings(SORTS[r.below(SORTS.len())]).all;
    &all[r.below(all.len())]
}

/// How a draft is drawn: one field in `odds` is spelled in any way, none where it is 0; one in
/// `thin` is there.
#[derive(Clone, Copy)]
struct Style {
    odds: usize,
    thin: usize,
}

fn draft(r: &mut Rng) -> Draft {
    let style = Style {
        odds: [0, 0, 60, 20, 8][r.below(5)],
        thin: [1, 4, 6, 8, 12][r.below(5)],
    };
    let wide = (r.below(150) == 0).then(|| SECTIONS[2 + r.below(3)]);
    let mut draft = Draft::default();
    for section in SECTIONS {
        if wide == Some(section) {
            widened(r, section, &mut draft);
        } else {
            drawn(r, section, style, &mut draft);
        }
    }
    if r.below(8) == 0 {
        WHOLES[r.below(WHOLES.len())].apply(&mut draft, r.below(3));
    }
    if r.below(3) == 0 {
        draft.blocks.iter_mut().for_each(|b| b.rank = r.below(4));
    }
    draft
}

fn drawn(r: &mut Rng, section: Section, style: Style, draft: &mut Draft) {
    let count = match section {
        Section::Board | Section::Image => [0, 1, 1, 1, 2][r.below(5)],
        _ => [0, 0, 1, 1, 2][r.below(5)],
    };
    for n in 0..count {
        draft.blocks.push(block(r, section, n, style));
    }
}

// Around its limit, with short entries, seldom with a fault in one.
fn widened(r: &mut Rng, section: Section, draft: &mut Draft) {
    let most = match section {
        Section::Partition => 32,
        _ => 64,
    };
    let thin = Style { odds: 60, thin: 60 };
    for n in 0..most - 1 + r.below(3) {
        draft.blocks.push(block(r, section, n, thin));
    }
}

fn block(r: &mut Rng, section: Section, n: usize, style: Style) -> Block {
    let mut block = Block::bare(section, n);
    if section == Section::Application && r.below(2) == 0 {
        let key = r.pick(&["a", "b", "ab", "A", "\"q r\"", "é", "x-1", "\"p1\"", "name"]);
        block.header = format!("[apps.{key}]");
    }
    for (key, sort) in section.fields() {
        let held = block.lines.iter().any(|(held, _)| held == key);
        if style.odds > 0 && r.below(style.odds) == 0 {
            fault(r, &mut block, key, *sort);
        } else if held || r.below(style.thin) == 0 {
            let right = &spellings(*sort).right;
            let rest = right[r.below(right.len())].clone();
            set(&mut block, key, rest);
        }
    }
    if r.below(4) == 0 && block.lines.len() > 1 {
        let (a, b) = (r.below(block.lines.len()), r.below(block.lines.len()));
        block.lines.swap(a, b);
    }
    block
}

// Spelled in any way, left out, or written twice.
fn fault(r: &mut Rng, block: &mut Block, key: &str, sort: Sort) {
    let all = &spellings(sort).all;
    let rest = all[r.below(all.len())].clone();
    match r.below(8) {
        0 => block.lines.retain(|(held, _)| held != key),
        1 => block.lines.push((key.into(), rest)),
        _ => set(block, key, rest),
    }
}

fn set(block: &mut Block, key: &str, rest: String) {
    match block.lines.iter_mut().find(|(held, _)| held == key) {
        Some((_, held)) => *held = rest,
        None => block.lines.push((key.into(), rest)),
    }
}

/// Names to lend: plain, empty, no UTF-8, such as no file has, and such as paths treat apart.
pub const NAMES: [&[u8]; 16] = [
    b"board",
    b"stage-d13x",
    b"",
    b"\xFF",
    b"a\xC3",
    b"\xED\xA0\x80",
    "é漢😀".as_bytes(),
    b"a/b",
    b"/",
    b".",
    b"..",
    b".x",
    b"x.y",
    b"x.",
    b"\0",
    b"a\nb \"c\"",
];

pub fn name(r: &mut Rng) -> Vec<u8> {
    match r.below(32) {
        0 => "n".repeat(200 + r.below(200)).into_bytes(),
        1 => bytes(r),
        2..=15 => NAMES[0].to_vec(),
        _ => NAMES[r.below(NAMES.len())].to_vec(),
    }
}
