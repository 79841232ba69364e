//! All presets around one boundary, for one boundary after the other.
use super::faults::FAULTS;
use super::near::{AFTER, BEFORE, MULTIPLES, TARGETS, named, offsets, sizes, wants};
use super::plain::{app, insert, nth_app, plain, texts};
use crate::generators::random::Rng;
use crate::model::answer::records::Preset;
use crate::model::validate::{end, erase_block};
use preset::{AppSpec, Chip};

pub const CHIPS: [Chip; 2] = [Chip::D13x, Chip::D21x];

/// What is tried, and presets to try it on.
pub type Case = (&'static str, fn() -> Vec<Preset>);

/// Each boundary by its name.
pub const CASES: [Case; 10] = [
    ("faults in pairs", pairs),
    ("full lists", full_lists),
    ("layouts", layouts),
    ("names", names),
    ("lengths of names", lengths),
    ("references", references),
    ("feature sets", feature_sets),
    ("targets", targets),
    ("multiples", multiples),
    ("locks", locks),
];

// Every two faults in both orders, in one entry and in two; the chips take turns.
fn pairs() -> Vec<Preset> {
    let (mut out, mut r) = (Vec::new(), Rng::new(1));
    for (_, first) in FAULTS {
        for (_, second) in FAULTS {
            for (n, m) in [(1, 1), (1, 2), (2, 1), (0, 3)] {
                let mut p = plain(CHIPS[out.len() % 2], [4, 4, 4]);
                first(&mut p, n, &mut r);
                second(&mut p, m, &mut r);
                out.push(p);
            }
        }
    }
    out
}

// Each fault at the ends of lists that are full, or have room for one more application.
fn full_lists() -> Vec<Preset> {
    let (mut out, mut r) = (Vec::new(), Rng::new(3));
    for (_, fault) in FAULTS {
        for (n, apps) in [(61, 64), (62, 63), (63, 64)] {
            let mut p = plain(CHIPS[out.len() % 2], [32, 64, apps]);
            fault(&mut p, n, &mut r);
            out.push(p);
        }
    }
    out
}

// Two partitions, the second anywhere around the first and around the end of all.
fn layouts() -> Vec<Preset> {
    let mut out = Vec::new();
    for chip in CHIPS {
        let base = plain(chip, [3, 1, 0]);
        let block = erase_block(base.image.media);
        let starts = offsets(block, 0);
        out.extend(starts.iter().map(|&start| laid(&base, 0, start, block)));
        for first in sizes(block, 0) {
            let base = laid(&base, 0, 0, first);
            for start in offsets(block, end(&base.partitions[0])) {
                let each = sizes(block, start);
                out.extend(each.iter().map(|&size| laid(&base, 1, start, size)));
            }
        }
    }
    out
}

// With another partition of that number, and the one after it where it can be.
fn laid(base: &Preset, n: usize, offset: u32, size: u32) -> Preset {
    let mut p = base.clone();
    (p.partitions[n].offset, p.partitions[n].size) = (offset, size);
    let after = u32::try_from(end(&p.partitions[n]));
    p.partitions[n + 1].offset = after.unwrap_or(0);
    p
}

// Up to four of three names, none of them or the empty one, in every order, for each list.
fn names() -> Vec<Preset> {
    let mut out = Vec::new();
    for n in 0..4usize.pow(4) {
        let some = [0, 1, 2, 3].map(|i| ["a", "b", "c", ""][n / 4usize.pow(i) % 4]);
        let mut all = [(); 3].map(|_| plain(Chip::D13x, [4, 4, 4]));
        for (i, name) in some.into_iter().enumerate() {
            all[0].partitions[i].name = name.into();
            all[0].components[i].partition = name.into();
            nth_app(&mut all[0], i).partition = name.into();
            all[1].components[i].name = name.into();
            nth_app(&mut all[2], i).name = name.into();
        }
        out.extend(all);
    }
    out
}

// Names of 0 to 40 bytes in characters of each length.
fn lengths() -> Vec<Preset> {
    let (mut out, mut r) = (Vec::new(), Rng::new(2));
    for bytes in (0..=40).flat_map(|n| [n; 6]) {
        let mut all = [(); 3].map(|_| plain(Chip::D21x, [1, 2, 2]));
        all[0].image.boot_app = named(&mut r, bytes);
        all[1].components[1].name = named(&mut r, bytes);
        nth_app(&mut all[2], 1).name = named(&mut r, bytes);
        out.extend(all);
    }
    out
}

// Partitions whose names are cut, trimmed or neither, referred to in every way.
pub(crate) fn references() -> Vec<Preset> {
    let mut out = Vec::new();
    let ways = BEFORE.iter().flat_map(|b| AFTER.map(|after| (*b, after)));
    for (before, after) in ways {
        for name in ["a", " a", "a ", "a;b", ";", "\u{A0}a", "a\u{200B}"] {
            let mut base = plain(Chip::D13x, [2, 2, 1]);
            base.partitions[1].name = name.into();
            base.components[1].partition = "p0".into();
            for held in ["a", "p0"] {
                let reference = [before, held, after].concat();
                let mut all = [(); 3].map(|_| base.clone());
                all[0].components.truncate(1);
                all[0].components[0].partition = reference.clone();
                all[1].components[1].partition = reference.clone();
                nth_app(&mut all[2], 0).partition = reference;
                out.extend(all);
            }
        }
    }
    out
}

// Two components and an application with two packages and two sets in all combinations.
fn feature_sets() -> Vec<Preset> {
    const PACKAGES: [Option<&str>; 3] = [None, Some("p"), Some("q")];
    const SETS: [&[&str]; 2] = [&["f"], &["g"]];
    let mut all = Vec::new();
    for (package, pbp) in PACKAGES.iter().flat_map(|a| PACKAGES.map(|b| (*a, b))) {
        let sets = SETS.iter().flat_map(|a| SETS.map(|b| [*a, b]));
        all.extend(sets.map(|sets| ([package, pbp], sets)));
    }
    let mut out = Vec::new();
    for (first, second) in all.iter().flat_map(|a| all.iter().map(move |b| (a, b))) {
        for features in [None, Some(SETS[0]), Some(SETS[1])] {
            let mut p = plain(Chip::D13x, [1, 2, 0]);
            wants(&mut p.components[0], first.0, first.1);
            wants(&mut p.components[1], second.0, second.1);
            if let Some(features) = features {
                let features = texts(features);
                let app = app("p", "p0");
                insert(&mut p, AppSpec { features, ..app });
            }
            out.push(p);
        }
    }
    out
}

// Up to three pieces.
fn targets() -> Vec<Preset> {
    let mut out = Vec::new();
    let pieces: Vec<_> = TARGETS.into_iter().chain([""]).collect();
    let pairs = pieces
        .iter()
        .flat_map(|a| pieces.iter().map(move |b| [*a, *b].concat()));
    for two in pairs {
        for chip in CHIPS {
            out.extend(pieces.iter().map(|last| {
                let mut p = plain(chip, [1, 1, 0]);
                p.board.target = format!("{two}{last}");
                p
            }));
        }
    }
    out
}

fn multiples() -> Vec<Preset> {
    let mut out = Vec::new();
    for n in MULTIPLES
        .into_iter()
        .chain(0..20)
        .chain((0..32).map(|bit| 1 << bit))
    {
        let mut all = [(); 3].map(|_| plain(Chip::D21x, [1, 2, 2]));
        all[0].components[1].ext_reserve = n as usize;
        all[1].components[1].load_address = Some(n);
        nth_app(&mut all[2], 1).load_address = Some(n);
        out.extend(all);
    }
    out
}

// Three partitions, the last named like the second but for what a component's reference drops, locked in every way; two
// applications, with two names or one, each in any of them or in none, and a component in the same as the first.
pub(crate) fn locks() -> Vec<Preset> {
    let mut out = Vec::new();
    for name in ["a;b", " a", "a "] {
        let places = ["p0", "a", name, "a;"];
        let each = places.iter().flat_map(|a| places.map(|b| (*a, b)));
        for ((first, second), bits) in each.flat_map(|pair| (0..8).map(move |bits| (pair, bits))) {
            let mut p = plain(Chip::D13x, [3, 2, 2]);
            p.partitions[1].name = "a".into();
            p.partitions[2].name = name.into();
            for (i, part) in p.partitions.iter_mut().enumerate() {
                part.locked = bits >> i & 1 == 1;
            }
            p.components[1].partition = first.into();
            nth_app(&mut p, 0).partition = first.into();
            nth_app(&mut p, 1).partition = second.into();
            out.push(p.clone());
            nth_app(&mut p, 1).name = "a00".into();
            out.push(p);
        }
    }
    out
}
