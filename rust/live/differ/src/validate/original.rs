//! The original's verdict on a preset: what its message says.
//!
//! A message names an entry, if any, by what the entry is called; of two that are called the same
//! it is the second one that is refused.
use crate::records::original::{Told, read_and};
use oracle::preset::Preset as Theirs;
use preset::Preset;
use replay::model::text::step;

/// The records of a preset that it reads and validates.
pub fn read(text: &str, name: &[u8]) -> Result<Preset, Told> {
    read_and(text, name, validated)
}

fn validated(preset: &Theirs) -> Result<(), Told> {
    let verdict = preset.validate().map_err(|e| e.to_string());
    verdict.map_err(|message| told_of(preset, &message))
}

/// What its message about a preset says.
pub fn told_of(preset: &Theirs, message: &str) -> Told {
    let told = whole(message).or_else(|| entry(preset, message));
    told.unwrap_or_else(|| panic!("unknown message: {message}"))
}

// How messages begin that are about no entry.
const WHOLE: [(&str, u32); 9] = [
    ("unsupported platform/media combination: ", 30),
    ("unsupported platform \"", 31),
    ("[board] profile must not be empty", 32),
    ("[image] app \"", 33),
    ("unsupported target triple \"", 34),
    ("unsupported chip/target combination: ", 35),
    ("preset declares no [[partition]] entries", 40),
    ("preset declares no [[component]] entries", 50),
    ("no `[[component]]` targets the first partition \"", 70),
];

fn whole(message: &str) -> Option<Told> {
    let known = WHOLE.iter().find(|(start, _)| message.starts_with(start));
    known.map(|(_, number)| Told {
        number: *number,
        entry: None,
    })
}

fn entry(preset: &Theirs, message: &str) -> Option<Told> {
    numbered(message)
        .or_else(|| named(preset, message))
        .or_else(|| feature_sets(preset, message))
        .or_else(|| application(preset, message))
}

fn told(number: u32, section: u32, place: usize) -> Told {
    Told {
        number,
        entry: Some((section, place)),
    }
}

// A partition without a name is told by its number.
fn numbered(message: &str) -> Option<Told> {
    let rest = message.strip_prefix("partition #")?;
    let place = rest.strip_suffix(" has an empty name")?;
    Some(told(42, 3, place.parse().expect("an entry's number")))
}

// What stands before the name of a partition or component, and after it.
const NAMED: [(&str, &str, u32); 16] = [
    ("partition ", " must start at offset 0: ", 41),
    ("duplicate partition name ", "", 43),
    ("partition ", " has a zero size", 44),
    ("partition ", " offset 0x", 45),
    ("partition ", " size 0x", 46),
    (
        "partitions are not ordered and non-overlapping: ",
        " starts at 0x",
        47,
    ),
    ("partition ", " ends past 4 GiB", 48),
    ("duplicate component name ", "", 51),
    ("component name ", " is ", 52),
    ("component ", " sets both `package` and `file`", 53),
    ("component ", " names neither a cargo `package` nor ", 54),
    ("component ", " sets both `pbp` and `pbp_package`", 55),
    ("component ", " is an updater (", 56),
    ("component ", " is not an updater and names no ", 57),
    ("component ", " references unknown partition \"", 58),
    ("component ", ": `ext_reserve` (", 59),
];

fn named(preset: &Theirs, message: &str) -> Option<Told> {
    let (name, number) = NAMED.iter().find_map(|(before, after, number)| {
        let (name, rest) = quoted(message.strip_prefix(before)?)?;
        rest.starts_with(after).then_some((name, *number))
    })?;
    let (section, names): (_, Vec<_>) = match number {
        41..=48 => (3, preset.partitions.iter().map(|p| &p.name).collect()),
        _ => (4, preset.components.iter().map(|c| &c.name).collect()),
    };
    let mut same = (0..names.len()).filter(|&i| format!("{:?}", names[i]) == name);
    let place = same.nth(usize::from(matches!(number, 43 | 51)));
    Some(told(number, section, place.expect("an entry of that name")))
}

// A text in quotes, as Debug writes it, and what follows.
fn quoted(s: &str) -> Option<(&str, &str)> {
    let mut state = 0;
    let end = s.bytes().position(|b| {
        state = step(state, b);
        state == 0
    })?;
    s.starts_with('"').then(|| s.split_at(end + 1))
}

// The last word of the message says whether it was a component's package.
fn feature_sets(preset: &Theirs, message: &str) -> Option<Told> {
    let (package, rest) = quoted(message.strip_prefix("package ")?)?;
    let sets = rest.strip_prefix(" is required with two feature sets (")?;
    if sets.ends_with("; give the components distinct packages") {
        return Some(told(60, 4, clashing(preset)));
    }
    let mut keys = preset.apps.keys();
    let place = keys.position(|key| format!("{key:?}") == package);
    Some(told(60, 5, place.expect("an application of that key")))
}

// Without applications and with the components up to this one it is refused, with fewer it is not.
fn clashing(preset: &Theirs) -> usize {
    let refused = |last: &usize| {
        let mut part = preset.clone();
        part.components.truncate(last + 1);
        part.apps.clear();
        let verdict = part.validate();
        verdict.is_err_and(|e| e.to_string().starts_with("package "))
    };
    let first = (0..preset.components.len()).find(refused);
    first.expect("two components clash")
}

const APPLICATION: [(&str, u32); 5] = [
    (" has an empty `name`", 61),
    (" name \"", 62),
    (" has an empty `filename`", 63),
    (" references unknown partition \"", 64),
    (" load_address 0x", 66),
];

// Keys are arbitrary text, so each one is looked for.
fn application(preset: &Theirs, message: &str) -> Option<Told> {
    let mut keys = preset.apps.keys().enumerate();
    keys.find_map(|(place, key)| {
        let header = format!("[apps.{key}]");
        if let Some(rest) = message.strip_prefix(&header) {
            let known = APPLICATION
                .iter()
                .find(|(start, _)| rest.starts_with(start));
            return known.map(|(_, number)| told(*number, 5, place));
        }
        let (_, rest) = quoted(message.strip_prefix("duplicate application AIC name ")?)?;
        (rest.strip_prefix(" in ")? == header).then(|| told(65, 5, place))
    })
}
