//! Validation of records by 01's rules.
use super::answer::records::{Preset, Read, Refusal};
use super::records::{self, LIMITS, Limits, belongings};
use super::records::{APPLICATION, BOARD, COMPONENT, IMAGE, PARTITION};
use super::text::trim;
use preset::{AppSpec, Chip, ComponentSpec, Media, PartitionSpec};

/// Every number that validation refuses with.
pub const NUMBERS: [u32; 34] = [
    30, 31, 32, 33, 34, 35, 40, 41, 42, 43, 44, 45, 46, 47, 48, 50, 51, 52, 53, 54, 55, 56, 57, 58,
    59, 60, 61, 62, 63, 64, 65, 66, 67, 70,
];

/// First the records, then the rules.
pub fn read(text: &[u8], name: &[u8]) -> Read {
    read_within(text, name, &LIMITS)
}

/// The same with other limits.
pub fn read_within(text: &[u8], name: &[u8], limits: &Limits) -> Read {
    let answer = records::read_within(text, name, limits)?;
    match refusal(&answer.preset) {
        None => Ok(answer),
        Some(refusal) => Err(refusal),
    }
}

/// The first rule that is broken, in table order, one entry through its checks before the next.
pub fn refusal(p: &Preset) -> Option<Refusal> {
    let apps: Vec<_> = p.apps.values().collect();
    front(p)
        .or_else(|| listed(p, PARTITION, &p.partitions, beginning, partition))
        .or_else(|| listed(p, COMPONENT, &p.components, no_components, component))
        .or_else(|| feature_sets(p))
        .or_else(|| listed(p, APPLICATION, &apps, |_| 0, application))
        .or_else(|| told(boot_chain(p), COMPONENT, 0))
}

// The number of the first rule that is broken, 0 where none is.
fn first(rules: &[(u32, bool)]) -> u32 {
    let broken = rules.iter().find(|(_, broken)| *broken);
    broken.map_or(0, |(number, _)| *number)
}

fn told(number: u32, section: u32, place: usize) -> Option<Refusal> {
    (number > 0).then_some(Refusal {
        number,
        section,
        place,
    })
}

// What is wrong with a list, then with each entry, which sees the entries before it.
fn listed<T>(
    p: &Preset,
    section: u32,
    list: &[T],
    whole: fn(&Preset) -> u32,
    one: fn(&Preset, &[T], &T) -> u32,
) -> Option<Refusal> {
    let each = |i: usize| told(one(p, &list[..i], &list[i]), section, i);
    told(whole(p), section, 0).or_else(|| (0..list.len()).find_map(each))
}

// Names of images and applications have no more bytes.
const NAME_MAX: usize = 32;

fn long(name: &str) -> bool {
    name.len() > NAME_MAX
}

// 30, 31 and 33 are told of the image, 32, 34 and 35 of the board.
fn front(p: &Preset) -> Option<Refusal> {
    let (word, _, media) = belongings(p.board.chip);
    let width = width(&p.board.target);
    let own = match p.board.chip {
        Chip::D13x => 32,
        Chip::D21x => 64,
    };
    let number = first(&[
        (30, p.image.media != media),
        (31, p.image.platform != word),
        (32, p.board.profile.is_empty()),
        (33, long(&p.image.boot_app)),
        (34, width.is_none()),
        (35, width != Some(own)),
    ]);
    let section = match number {
        30 | 31 | 33 => IMAGE,
        _ => BOARD,
    };
    told(number, section, 0)
}

// `riscv32` counts first.
fn width(target: &str) -> Option<u32> {
    if target.contains("riscv32") {
        Some(32)
    } else {
        target.contains("riscv64").then_some(64)
    }
}

fn beginning(p: &Preset) -> u32 {
    first(&[
        (40, p.partitions.is_empty()),
        (41, p.partitions.first().is_some_and(|p| p.offset != 0)),
    ])
}

pub(crate) fn erase_block(media: Media) -> u32 {
    match media {
        Media::SpiNor => 4_096,
        Media::SpiNand => 131_072,
    }
}

pub(crate) fn end(p: &PartitionSpec) -> u64 {
    u64::from(p.offset) + u64::from(p.size)
}

fn partition(p: &Preset, before: &[PartitionSpec], own: &PartitionSpec) -> u32 {
    let block = erase_block(p.image.media);
    let previous = before.last().map_or(0, end);
    first(&[
        (42, own.name.is_empty()),
        (43, before.iter().any(|other| other.name == own.name)),
        (44, own.size == 0),
        (45, !own.offset.is_multiple_of(block)),
        (46, !own.size.is_multiple_of(block)),
        (47, u64::from(own.offset) < previous),
        (48, end(own) >= 1 << 32),
    ])
}

fn no_components(p: &Preset) -> u32 {
    first(&[(50, p.components.is_empty())])
}

// The name that a component's reference means: everything from the first `;` dropped, then trimmed.
pub(crate) fn reference(partition: &str) -> &str {
    let mut pieces = partition.split(';');
    let cut = pieces.next().expect("one piece at least");
    let (from, end) = trim(cut.as_bytes());
    &cut[from..end]
}

fn known(p: &Preset, name: &str) -> bool {
    p.partitions.iter().any(|part| part.name == name)
}

// Whether no application may lie there.
fn locked(p: &Preset, name: &str) -> bool {
    let mut parts = p.partitions.iter();
    parts.any(|part| part.locked && part.name == name)
}

fn component(p: &Preset, before: &[ComponentSpec], own: &ComponentSpec) -> u32 {
    let (package, file) = (own.package.is_some(), own.file.is_some());
    let nowhere = own.partition.is_empty();
    first(&[
        (51, before.iter().any(|other| other.name == own.name)),
        (52, long(&own.name)),
        (53, package && file),
        (54, !package && !file),
        (55, own.pbp.is_some() && own.pbp_package.is_some()),
        (56, own.updater && own.ram.is_none()),
        (57, nowhere && !own.updater),
        (58, !nowhere && !known(p, reference(&own.partition))),
        (59, !own.ext_reserve.is_multiple_of(512)),
    ])
}

/// A package that an entry wants built, and the features it wants.
struct Use<'a> {
    section: u32,
    place: usize,
    package: &'a str,
    features: &'a [String],
}

// Where a component's two packages are one, only `pbp_features` count.
fn uses(p: &Preset) -> Vec<Use<'_>> {
    let mut out = Vec::new();
    for (place, c) in p.components.iter().enumerate() {
        let one = c.package == c.pbp_package;
        let own = if one { &c.pbp_features } else { &c.features };
        for (package, features) in [(&c.package, own), (&c.pbp_package, &c.pbp_features)] {
            out.extend(package.as_ref().map(|package| Use {
                section: COMPONENT,
                place,
                package,
                features,
            }));
        }
    }
    out.extend(p.apps.values().enumerate().map(|(place, a)| Use {
        section: APPLICATION,
        place,
        package: &a.package,
        features: &a.features,
    }));
    out
}

// 60, told of the later entry.
fn feature_sets(p: &Preset) -> Option<Refusal> {
    let uses = uses(p);
    let clash = |a: &Use, b: &Use| a.package == b.package && a.features != b.features;
    let later = (0..uses.len()).find(|&i| uses[..i].iter().any(|earlier| clash(earlier, &uses[i])));
    let at = &uses[later?];
    told(60, at.section, at.place)
}

fn application(p: &Preset, before: &[&AppSpec], own: &&AppSpec) -> u32 {
    first(&[
        (61, own.name.is_empty()),
        (62, long(&own.name)),
        (63, own.filename.is_empty()),
        (64, !known(p, &own.partition)),
        (67, locked(p, &own.partition)),
        (65, before.iter().any(|other| other.name == own.name)),
        (66, own.load_address.is_some_and(|at| at % 4 != 0)),
    ])
}

// 70: no component refers to the first partition.
fn boot_chain(p: &Preset) -> u32 {
    let targets = |name: &str| p.components.iter().any(|c| reference(&c.partition) == name);
    let first_name = p.partitions.first().map(|part| part.name.as_str());
    first(&[(70, !first_name.is_some_and(targets))])
}
