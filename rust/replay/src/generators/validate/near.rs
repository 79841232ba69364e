//! Presets around every boundary.
use super::plain::{app, insert, nth_app, texts};
use crate::generators::random::Rng;
use crate::model::answer::records::Preset;
use crate::model::validate::erase_block;
use preset::ComponentSpec;

/// A change of one sort that may break a rule or not.
pub type Near = fn(&mut Rng, &mut Preset);

pub const NEAR: [Near; 8] = [
    layout, names, references, uses, lengths, targets, multiples, locks,
];

const TOP: i64 = 1 << 32;

fn in_range(all: &[i64]) -> Vec<u32> {
    all.iter().filter_map(|&n| u32::try_from(n).ok()).collect()
}

/// Starts around the first block, the end of the partition before and the last block.
pub fn offsets(block: u32, end: u64) -> Vec<u32> {
    let (block, end) = (i64::from(block), end as i64);
    let low = [0, 1, block - 1, block, block + 1];
    let high = [TOP - 2 * block, TOP - block - 1, TOP - block, TOP - 1];
    let around = [end - block, end - 1, end, end + 1, end + block];
    in_range(&[&low[..], &around, &high].concat())
}

/// Sizes around a block, and such that a partition from `offset` on ends around 2^32.
pub fn sizes(block: u32, offset: u32) -> Vec<u32> {
    let (block, rest) = (i64::from(block), TOP - i64::from(offset));
    let low = [0, 1, block - 1, block, block + 1, 2 * block];
    let high = [
        rest - block,
        rest - 1,
        rest,
        rest + 1,
        rest + block,
        TOP - 1,
    ];
    in_range(&[&low[..], &high].concat())
}

pub(crate) fn drawn<T: Copy>(r: &mut Rng, from: &[T]) -> T {
    from[r.below(from.len())]
}

fn layout(r: &mut Rng, p: &mut Preset) {
    let (block, mut end) = (erase_block(p.image.media), 0u64);
    for part in &mut p.partitions {
        part.offset = match r.below(3) {
            0 => drawn(r, &offsets(block, end)),
            _ => end as u32,
        };
        part.size = match r.below(3) {
            0 => drawn(r, &sizes(block, part.offset)),
            _ => block * (1 + r.below(3) as u32),
        };
        end = u64::from(part.offset) + u64::from(part.size);
    }
}

// Some entries of a list are named like others.
fn names(r: &mut Rng, p: &mut Preset) {
    let mut names: Vec<&mut String> = match r.below(3) {
        0 => p.partitions.iter_mut().map(|it| &mut it.name).collect(),
        1 => p.components.iter_mut().map(|it| &mut it.name).collect(),
        _ => p.apps.values_mut().map(|it| &mut it.name).collect(),
    };
    for i in 0..names.len() {
        let from = r.below(names.len() * 2);
        if from < names.len() {
            *names[i] = names[from].clone();
        }
    }
}

/// What may stand before and after a name in a reference to it.
pub const BEFORE: [&str; 7] = ["", "", " ", "\t\u{3000}", ";", " ;", "x"];
pub const AFTER: [&str; 9] = ["", "", " ", ";", ";x", " ;x", "\u{A0};;", "x", "\u{200B}"];

// Each entry refers to some partition in some way.
fn references(r: &mut Rng, p: &mut Preset) {
    let mut names: Vec<_> = p.partitions.iter().map(|part| part.name.clone()).collect();
    names.push(String::new());
    let components = p.components.iter_mut().map(|c| &mut c.partition);
    for held in components.chain(p.apps.values_mut().map(|a| &mut a.partition)) {
        if r.below(2) == 0 {
            let (before, after) = (r.pick(&BEFORE), r.pick(&AFTER));
            let name = &names[r.below(names.len())];
            *held = [before, name, after].concat();
        }
    }
}

/// A component's packages and the features for each; a file where it has no package.
pub fn wants(c: &mut ComponentSpec, packages: [Option<&str>; 2], features: [&[&str]; 2]) {
    let [package, pbp] = packages.map(|name| name.map(String::from));
    c.file = package.is_none().then(|| "blob".into());
    (c.package, c.pbp_package, c.pbp) = (package, pbp, None);
    (c.features, c.pbp_features) = (texts(features[0]), texts(features[1]));
}

// Two packages for all entries, in sets of one feature or the other, seldom of both.
fn uses(r: &mut Rng, p: &mut Preset) {
    const SETS: [&[&str]; 6] = [&["f"], &["f"], &["f"], &["g"], &[""], &["f", "g"]];
    for c in &mut p.components {
        let packages = [Some("p"), Some("q"), None];
        let packages = [drawn(r, &packages), drawn(r, &packages)];
        wants(c, packages, [drawn(r, &SETS), drawn(r, &SETS)]);
    }
    let partition = p
        .partitions
        .first()
        .map_or(String::new(), |part| part.name.clone());
    for key in ["p", "q"] {
        p.apps.remove(key);
        if r.below(2) == 0 {
            let mut more = app(key, &partition);
            more.features = texts(drawn(r, &SETS));
            insert(p, more);
        }
    }
}

/// A name of so many bytes, some of them in longer characters.
pub fn named(r: &mut Rng, bytes: usize) -> String {
    let c = r.pick(&["n", "é", "漢", "😀"]);
    let mut out = c.repeat(bytes / c.len());
    out.extend(std::iter::repeat_n('x', bytes % c.len()));
    out
}

fn lengths(r: &mut Rng, p: &mut Preset) {
    let components = p.components.iter_mut().map(|c| &mut c.name);
    let apps = p.apps.values_mut().map(|a| &mut a.name);
    for held in components.chain(apps).chain([&mut p.image.boot_app]) {
        if r.below(3) == 0 {
            let bytes = drawn(r, &[0, 1, 30, 31, 31, 32, 32, 32, 33, 34]);
            *held = named(r, bytes);
        }
    }
}

/// What targets are put together from.
pub const TARGETS: [&str; 8] = [
    "riscv32", "riscv64", "riscv", "32", "64", "-", "RISCV64", "é",
];

fn targets(r: &mut Rng, p: &mut Preset) {
    let pieces: Vec<_> = (0..r.below(5)).map(|_| r.pick(&TARGETS)).collect();
    p.board.target = pieces.concat();
}

/// Around multiples of 4 and of 512.
pub const MULTIPLES: [u32; 18] = [
    0,
    1,
    2,
    3,
    4,
    5,
    255,
    256,
    508,
    511,
    512,
    513,
    1_023,
    1_024,
    0xFFFF_FDFF,
    0xFFFF_FE00,
    0xFFFF_FFFC,
    0xFFFF_FFFF,
];

fn multiples(r: &mut Rng, p: &mut Preset) {
    for c in &mut p.components {
        if r.below(2) == 0 {
            c.ext_reserve = drawn(r, &MULTIPLES) as usize;
            c.load_address = Some(drawn(r, &MULTIPLES));
        }
    }
    for a in p.apps.values_mut() {
        if r.below(2) == 0 {
            a.load_address = Some(drawn(r, &MULTIPLES));
        }
    }
}

// Some partitions are locked, whoever lies in them; seldom one is named like the one before it but for what a
// component's reference drops, and an application lies there.
fn locks(r: &mut Rng, p: &mut Preset) {
    for part in &mut p.partitions {
        part.locked = r.below(3) == 0;
    }
    if r.below(3) > 0 || p.partitions.len() < 2 || p.apps.is_empty() {
        return;
    }
    let (at, app) = (1 + r.below(p.partitions.len() - 1), r.below(p.apps.len()));
    let around = drawn(r, &[("", ";b"), (" ", ""), ("", " "), ("", "\u{A0};")]);
    let name = [around.0, &p.partitions[at - 1].name, around.1].concat();
    nth_app(p, app).partition.clone_from(&name);
    p.partitions[at].name = name;
}
