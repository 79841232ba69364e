//! Which field of an entry a refusal means: fields are read in 01's order and the first fault is told, so it is the
//! first field in that order with that fault.
use crate::refusal::{Refusal, Section};
use crate::schema::{Chip, ComponentKind, Media};
use crate::tree::{Kind, Tree};

/// What a field has to be.
#[derive(Clone, Copy, Debug, PartialEq, Eq)]
pub(crate) enum Want {
    Text,
    Integer,
    Boolean,
    List,
}

type Fields = &'static [(&'static str, Want)];

const BOARD: Fields = &[
    ("chip", Want::Text),
    ("name", Want::Text),
    ("target", Want::Text),
    ("profile", Want::Text),
];

const IMAGE: Fields = &[
    ("platform", Want::Text),
    ("product", Want::Text),
    ("version", Want::Text),
    ("media", Want::Text),
    ("media_dev_id", Want::Integer),
    ("media_id", Want::Text),
    ("app", Want::Text),
];

const PARTITION: Fields = &[
    ("name", Want::Text),
    ("offset", Want::Integer),
    ("size", Want::Integer),
    ("locked", Want::Boolean),
];

const COMPONENT: Fields = &[
    ("kind", Want::Text),
    ("name", Want::Text),
    ("package", Want::Text),
    ("bin", Want::Text),
    ("file", Want::Text),
    ("filename", Want::Text),
    ("features", Want::List),
    ("pbp_features", Want::List),
    ("partition", Want::Text),
    ("attr", Want::Text),
    ("target_attr", Want::Text),
    ("target_filename", Want::Text),
    ("updater", Want::Boolean),
    ("ram", Want::Integer),
    ("pbp", Want::Text),
    ("pbp_package", Want::Text),
    ("private", Want::Text),
    ("load_address", Want::Integer),
    ("entry_point", Want::Integer),
    ("entry_offset", Want::Integer),
    ("header_version", Want::Integer),
    ("with_ext", Want::Boolean),
    ("ext_reserve", Want::Integer),
];

const APPLICATION: Fields = &[
    ("name", Want::Text),
    ("partition", Want::Text),
    ("filename", Want::Text),
    ("attr", Want::Text),
    ("features", Want::List),
    ("load_address", Want::Integer),
    ("entry_offset", Want::Integer),
];

/// A section's fields in the order of reading.
pub(crate) fn fields(section: Section) -> Fields {
    match section {
        Section::Text => &[],
        Section::Board => BOARD,
        Section::Image => IMAGE,
        Section::Partition => PARTITION,
        Section::Component => COMPONENT,
        Section::Application => APPLICATION,
    }
}

/// The most entries of a list.
pub(crate) fn most(section: Section) -> usize {
    match section {
        Section::Partition => 32,
        _ => 64,
    }
}

/// The most items of a feature list.
pub(crate) const FEATURES_MAX: usize = 32;

/// How many items a feature list has before duplicates drop.
pub(crate) fn count(tree: &Tree, list: usize) -> usize {
    match tree.text(list) {
        Some(words) => words.split([' ', ',']).filter(|w| !w.is_empty()).count(),
        None => tree.items(list).len(),
    }
}

fn fits(tree: &Tree, value: usize, want: Want) -> bool {
    match (want, tree.kind(value)) {
        (Want::Text | Want::List, Kind::Text) => true,
        (Want::Integer, Kind::Integer) | (Want::Boolean, Kind::Boolean) => true,
        (Want::List, Kind::Array) => {
            let mut items = tree.items(value).into_iter();
            items.all(|item| tree.kind(item) == Kind::Text)
        }
        _ => false,
    }
}

/// The key of the field that a refusal means, present or missing; none where it means an entry as a whole, or more than
/// one field.
pub(crate) fn meant(tree: &Tree, refusal: &Refusal, entry: usize) -> Option<&'static str> {
    let own = fields(refusal.section).iter();
    let value = |key: &str| tree.field(entry, key);
    let first = |fault: &dyn Fn(usize, Want) -> bool| {
        let mut found = own.clone().filter(|(key, want)| {
            let value = value(key);
            value.is_some_and(|value| fault(value, *want))
        });
        found.next().map(|(key, _)| *key)
    };
    match refusal.number {
        20 => first(&|value, want| !fits(tree, value, want)),
        21 => first(&|value, want| want == Want::Integer && !in_range(tree, value)),
        22 => Some(word(tree, refusal.section)),
        24 => {
            let mut needed = ["name", "offset", "size"].into_iter();
            needed.find(|key| value(key).is_none())
        }
        25 => first(&|value, want| want == Want::List && count(tree, value) > FEATURES_MAX),
        number => ruled(number),
    }
}

fn in_range(tree: &Tree, value: usize) -> bool {
    let number = tree.integer(value);
    number.is_none_or(|n| (0..=u32::MAX.into()).contains(&n))
}

// Which of the words 22 means. Without a chip the platform is asked for one, before the media.
fn word(tree: &Tree, section: Section) -> &'static str {
    let of = |section, key| tree.text(tree.field(tree.whole(section)?, key)?);
    let unknown = |word: &String| Chip::parse(word).is_none();
    match section {
        Section::Board => "chip",
        Section::Image => {
            let chipless = of(Section::Board, "chip").is_none();
            let platform = of(Section::Image, "platform").filter(unknown);
            if chipless && platform.is_some() {
                "platform"
            } else {
                "media"
            }
        }
        _ => "kind",
    }
}

/// The words that a field may have, where it takes no others.
pub(crate) fn words(key: &str) -> Vec<&'static str> {
    match key {
        "chip" | "platform" => Chip::ALL.map(Chip::name).into(),
        "media" => Media::ALL.map(Media::name).into(),
        "kind" => ComponentKind::ALL.map(ComponentKind::name).into(),
        _ => Vec::new(),
    }
}

// The field that a rule is about; of two that must not stand together, the second.
fn ruled(number: u32) -> Option<&'static str> {
    Some(match number {
        30 => "media",
        31 => "platform",
        32 => "profile",
        33 => "app",
        34 | 35 => "target",
        42 | 43 | 51 | 52 | 61 | 62 | 65 | 81 => "name",
        44 | 46 | 48 => "size",
        41 | 45 | 47 => "offset",
        53 => "file",
        55 => "pbp_package",
        56 => "updater",
        57 | 58 | 64 | 67 => "partition",
        59 => "ext_reserve",
        63 => "filename",
        66 => "load_address",
        _ => return None,
    })
}
