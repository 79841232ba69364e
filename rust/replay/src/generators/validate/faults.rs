//! For each rule a way to break it.
use super::plain::{app, insert, nth_app, open, texts};
use super::sound::{self, brim};
use crate::generators::random::Rng;
use crate::model::answer::records::Preset;
use crate::model::records::bare;
use crate::model::validate::{end, erase_block, reference};
use preset::{AppSpec, Chip, ComponentSpec, Media, PartitionSpec};

/// What breaks a rule of a sound preset, at an entry of the list that the rule is about.
pub type Fault = fn(&mut Preset, usize, &mut Rng);

/// Every number with a fault that is refused with it, where nothing else is wrong.
pub const FAULTS: [(u32, Fault); 34] = [
    (30, |p, _, _| p.image.media = other_media(p.image.media)),
    (31, |p, _, r| p.image.platform = other_word(r, p.board.chip)),
    (32, |p, _, _| p.board.profile.clear()),
    (33, |p, _, r| p.image.boot_app = over(r)),
    (34, |p, _, r| p.board.target = r.pick(&NEITHER).into()),
    (35, |p, _, r| p.board.target = other_width(r, p.board.chip)),
    (40, |p, _, _| p.partitions.clear()),
    (41, |p, _, r| {
        part(p, 0, |it, block| it.offset = start(r, block))
    }),
    (42, |p, n, _| part(p, n, |it, _| it.name.clear())),
    (43, |p, n, _| twice(&mut p.partitions, n, |it| &mut it.name)),
    (44, |p, n, _| part(p, n, |it, _| it.size = 0)),
    (45, |p, n, r| {
        later(p, n, |it, _, block| it.offset |= bit(r, block))
    }),
    (46, |p, n, r| {
        part(p, n, |it, block| it.size |= bit(r, block))
    }),
    (47, |p, n, r| {
        later(p, n, |it, end, block| it.offset = before(r, end, block))
    }),
    (48, |p, n, r| {
        later(p, n, |it, end, block| beyond(r, it, end, block))
    }),
    (50, |p, _, _| p.components.clear()),
    (51, |p, n, _| twice(&mut p.components, n, |it| &mut it.name)),
    (52, |p, n, r| component(p, n, |it| it.name = over(r))),
    (53, |p, n, _| component(p, n, two_sources)),
    (54, |p, n, _| {
        component(p, n, |it| (it.package, it.file) = (None, None))
    }),
    (55, |p, n, _| component(p, n, two_boots)),
    (56, |p, n, _| {
        component(p, n, |it| (it.updater, it.ram) = (true, None))
    }),
    (57, |p, n, _| {
        component(p, n, |it| {
            (it.updater, it.partition) = (false, String::new())
        })
    }),
    (58, |p, n, r| {
        component(p, n, |it| it.partition = r.pick(&NO_REFERENCES).into())
    }),
    (59, |p, n, r| {
        component(p, n, |it| it.ext_reserve |= bit(r, 512) as usize)
    }),
    (60, two_sets),
    (61, |p, n, _| application(p, n, |it| it.name.clear())),
    (62, |p, n, r| application(p, n, |it| it.name = over(r))),
    (63, |p, n, _| application(p, n, |it| it.filename.clear())),
    (64, |p, n, r| {
        application(p, n, |it| it.partition = r.pick(&NO_PARTITIONS).into())
    }),
    (65, |p, n, _| same_names(p, n)),
    (66, |p, n, r| {
        application(p, n, |it| {
            it.load_address = Some(r.draw() as u32 | bit(r, 4))
        })
    }),
    (67, |p, n, _| lock(p, n)),
    (70, |p, _, r| away(p, r)),
];

// A bit that no multiple of a power of two has.
fn bit(r: &mut Rng, power: u32) -> u32 {
    1 << r.below(power.trailing_zeros() as usize)
}

fn other_media(media: Media) -> Media {
    match media {
        Media::SpiNor => Media::SpiNand,
        Media::SpiNand => Media::SpiNor,
    }
}

fn other_word(r: &mut Rng, chip: Chip) -> String {
    let other = match chip {
        Chip::D13x => "d21x",
        Chip::D21x => "d13x",
    };
    r.pick(&[other, other, "", "D13X", "d13x ", "d2", "é"])
        .into()
}

// A name of 33 bytes or more.
fn over(r: &mut Rng) -> String {
    let more = r.pick(&["x", "é", "\n", "a longer end than others have"]);
    brim(r) + more
}

const NEITHER: [&str; 8] = [
    "",
    "riscv",
    "RISCV32",
    "riscv3 2",
    "riscv128-unknown-none-elf",
    "iscv32-riscv6",
    "riscv\n64",
    "x86_64",
];

fn other_width(r: &mut Rng, chip: Chip) -> String {
    let wrong = match chip {
        Chip::D13x => ["riscv64", "riscv64gc-unknown-none-elf", "RISCV32-riscv64"],
        Chip::D21x => ["riscv32", "riscv64-riscv32", "riscv32-riscv64"],
    };
    r.pick(&wrong).into()
}

fn part(p: &mut Preset, n: usize, change: impl FnOnce(&mut PartitionSpec, u32)) {
    let (block, count) = (erase_block(p.image.media), p.partitions.len());
    if count > 0 {
        change(&mut p.partitions[n % count], block);
    }
}

// The first partition starts elsewhere.
fn start(r: &mut Rng, block: u32) -> u32 {
    [1, block - 1, block, block + 1, u32::MAX][r.below(5)]
}

// One after the first, with the end of the one before it.
fn later(p: &mut Preset, n: usize, change: impl FnOnce(&mut PartitionSpec, u64, u32)) {
    let block = erase_block(p.image.media);
    if let [only] = &mut p.partitions[..] {
        only.size = block;
        p.partitions.push(PartitionSpec {
            name: "later".into(),
            offset: block,
            size: block,
            locked: false,
        });
    }
    if let [before @ .., _] = &p.partitions[..]
        && !before.is_empty()
    {
        let at = 1 + n % before.len();
        let previous = end(&before[at - 1]);
        change(&mut p.partitions[at], previous, block);
    }
}

// A start before an end, on a block where the end is on one.
fn before(r: &mut Rng, end: u64, block: u32) -> u32 {
    let blocks = (end / u64::from(block)).clamp(1, 1 << 20);
    let back = u64::from(block) * (1 + r.below(blocks as usize) as u64);
    end.saturating_sub(back) as u32
}

// Up to 2^32 and no less.
fn beyond(r: &mut Rng, it: &mut PartitionSpec, end: u64, block: u32) {
    let (last, rest) = (0u32.wrapping_sub(block), (1u64 << 32).saturating_sub(end));
    (it.offset, it.size) = match r.below(4) {
        0 => (last, block),
        1 => (last, last),
        2 => (last, 2 * block),
        _ => (end as u32, rest.min(u64::from(last)) as u32),
    };
}

// One entry has the name of an earlier one; a single one is written twice.
fn twice<T: Clone>(list: &mut Vec<T>, n: usize, name: fn(&mut T) -> &mut String) {
    if list.len() == 1 {
        list.push(list[0].clone());
    }
    if list.len() > 1 {
        let (early, late) = twins(n, list.len());
        *name(&mut list[late]) = name(&mut list[early]).clone();
    }
}

// Two of so many entries, an earlier and a later one.
fn twins(n: usize, count: usize) -> (usize, usize) {
    let late = 1 + n % (count - 1);
    (n % late, late)
}

fn component(p: &mut Preset, n: usize, change: impl FnOnce(&mut ComponentSpec)) {
    let count = p.components.len();
    if count > 0 {
        change(&mut p.components[n % count]);
    }
}

fn two_sources(it: &mut ComponentSpec) {
    it.package.get_or_insert_default();
    it.file.get_or_insert_default();
}

fn two_boots(it: &mut ComponentSpec) {
    it.pbp.get_or_insert_default();
    it.pbp_package.get_or_insert_default();
}

// What is cut and trimmed to no partition's name, and what is exactly none.
const NO_REFERENCES: [&str; 8] = [
    "nowhere",
    " ",
    ";",
    ";boot",
    " ; boot",
    "boo;boot",
    "bo ot",
    "\u{200B}boot",
];
const NO_PARTITIONS: [&str; 8] = [
    "nowhere",
    "",
    " ",
    "boot;",
    " app;x",
    "boo",
    "APP",
    "\u{200B}boot",
];

// The package `two` for a component with one set of features, and for a later entry with another.
fn two_sets(p: &mut Preset, n: usize, r: &mut Rng) {
    if p.components.is_empty() {
        return;
    }
    if p.components.len() == 1 {
        let partition = p.components[0].partition.clone();
        let more = ComponentSpec {
            file: Some("blob".into()),
            partition,
            ..bare("second")
        };
        p.components.push(more);
    }
    let at = 1 + n % (p.components.len() - 1);
    let (early, late) = p.components.split_at_mut(at);
    built(&mut early[n % at], "f");
    match r.below(4) {
        0 | 1 => built(&mut late[0], "g"),
        2 => {
            built(&mut late[0], "f");
            late[0].package = Some("three".into());
            late[0].pbp_package = Some("two".into());
            late[0].pbp_features = texts(&["g"]);
        }
        _ => insert(
            p,
            AppSpec {
                features: texts(&["g"]),
                ..app("two", "nowhere")
            },
        ),
    }
}

fn built(c: &mut ComponentSpec, feature: &str) {
    (c.package, c.file) = (Some("two".into()), None);
    (c.pbp, c.pbp_package) = (None, None);
    c.features = texts(&[feature]);
    c.pbp_features = c.features.clone();
}

// At least so many applications, the added ones in a partition that is not locked; where all are, the first is opened.
fn at_least(p: &mut Preset, count: usize) {
    if p.apps.len() < count && p.partitions.iter().all(|part| part.locked) {
        part(p, 0, |it, _| it.locked = false);
    }
    let partition = open(p).into_iter().next().unwrap_or("boot".into());
    for key in ["n1", "n2"] {
        if p.apps.len() < count {
            insert(p, app(key, &partition));
        }
    }
}

fn application(p: &mut Preset, n: usize, change: impl FnOnce(&mut AppSpec)) {
    at_least(p, 1);
    let count = p.apps.len();
    change(nth_app(p, n % count));
}

fn same_names(p: &mut Preset, n: usize) {
    at_least(p, 2);
    let (early, late) = twins(n, p.apps.len());
    nth_app(p, late).name = nth_app(p, early).name.clone();
}

// The partition of an application is locked, where there is one of that name.
fn lock(p: &mut Preset, n: usize) {
    at_least(p, 1);
    let count = p.apps.len();
    let name = nth_app(p, n % count).partition.clone();
    let mut parts = p.partitions.iter_mut();
    if let Some(part) = parts.find(|part| part.name == name) {
        part.locked = true;
    }
}

// All components refer to another partition than the first.
fn away(p: &mut Preset, r: &mut Rng) {
    later(p, 0, |_, _, _| {});
    let plain = |part: &&PartitionSpec| reference(&part.name) == part.name;
    let others = p.partitions.iter().skip(1).rfind(plain);
    let Some(name) = others.map(|part| part.name.clone()) else {
        return p.components.iter_mut().for_each(only_updates);
    };
    for c in p.components.iter_mut().filter(|c| !c.partition.is_empty()) {
        c.partition = sound::reference(r, &name);
    }
}

// An updater needs no partition.
fn only_updates(c: &mut ComponentSpec) {
    c.updater = true;
    c.ram = Some(0);
    c.partition.clear();
}
