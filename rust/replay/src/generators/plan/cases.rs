//! All presets around one sort of what plans go by, for one sort after the other.
use super::random::{KINDS, PATHS};
use crate::generators::records::spelling::paths;
use crate::generators::validate::cases::{Case, locks, references};
use crate::generators::validate::near::wants;
use crate::generators::validate::plain::{app, insert, nth_app, plain};
use crate::model::answer::records::Preset;
use preset::{Chip, ComponentKind, ComponentSpec};

/// Each sort by its name.
pub const CASES: [Case; 7] = [
    ("places", places),
    ("names", names),
    ("uses of packages", uses),
    ("stems", stems),
    ("references", references),
    ("full lists", full_lists),
    ("locks", locks),
];

// It writes the flash and stays nowhere.
fn unplaced(c: &mut ComponentSpec) {
    (c.updater, c.ram) = (true, Some(0));
    c.partition.clear();
}

// Up to five components, each with a partition or without.
fn places() -> Vec<Preset> {
    let mut out = Vec::new();
    for count in 1..=5 {
        for bits in 0..1 << count {
            let mut p = plain(Chip::D13x, [1, count, 2]);
            let each = p.components.iter_mut().enumerate();
            let without = each.filter(|(i, _)| bits >> i & 1 == 1);
            without.for_each(|(_, c)| unplaced(c));
            out.push(p);
        }
    }
    out
}

// Three components and two applications with four names each, in every order.
fn names() -> Vec<Preset> {
    let mut out = Vec::new();
    for n in 0..4usize.pow(5) {
        let name = |i| ["a", "b", "ab", ""][n / 4usize.pow(i) % 4].to_string();
        let mut p = plain(Chip::D13x, [1, 3, 2]);
        (0..3).for_each(|i| p.components[i].name = name(i as u32));
        (0..2).for_each(|i| nth_app(&mut p, i).name = name(3 + i as u32));
        out.push(p);
    }
    out
}

// Two components with two packages or none in each of their places, each with a bin or without, and
// an application of either package or of neither.
fn uses() -> Vec<Preset> {
    const PACKAGES: [Option<&str>; 3] = [None, Some("p"), Some("q")];
    let bins = [None, Some("bin".to_string())];
    let each = PACKAGES.iter().flat_map(|a| PACKAGES.map(|b| [*a, b]));
    let all = each.flat_map(|packages| bins.clone().map(|bin| (packages, bin)));
    let all: Vec<_> = all.collect();
    let mut out = Vec::new();
    for (first, second) in all.iter().flat_map(|a| all.iter().map(move |b| (a, b))) {
        for key in ["p", "q", "r"] {
            let mut p = plain(Chip::D13x, [1, 2, 0]);
            for (c, (packages, bin)) in p.components.iter_mut().zip([first, second]) {
                wants(c, *packages, [&[], &[]]);
                c.bin = bin.clone();
            }
            insert(&mut p, app(key, "p0"));
            out.push(p);
        }
    }
    out
}

// A component of each kind, with a partition or without, a bin or without, and a package or a file of
// every short path and of others, before one that leads.
fn stems() -> Vec<Preset> {
    let files = paths(&["/", ".", "a"], 4).into_iter();
    let files: Vec<_> = files.chain(PATHS.map(String::from)).map(Some).collect();
    let mut out = Vec::new();
    for file in files.into_iter().chain([None]) {
        for n in 0..12 {
            let mut p = plain(Chip::D21x, [1, 2, 1]);
            p.board.name = "named".into();
            p.components[1].kind = [ComponentKind::App, ComponentKind::Raw][n % 2];
            let c = &mut p.components[0];
            c.kind = KINDS[n / 4];
            c.bin = (n / 2 % 2 == 1).then(|| "bin".into());
            if let Some(file) = &file {
                (c.package, c.file) = (None, Some(file.clone().into()));
            }
            out.push(p.clone());
            unplaced(&mut p.components[0]);
            out.push(p);
        }
    }
    out
}

// 64 components and 64 applications: two packages for each, one for all, or one component that goes
// somewhere, the last.
fn full_lists() -> Vec<Preset> {
    let full = || plain(Chip::D13x, [32, 64, 64]);
    let mut all = [(); 4].map(|_| full());
    for (i, c) in all[0].components.iter_mut().enumerate() {
        let [own, pbp] = [format!("own{i}"), format!("pbp{i}")];
        wants(c, [Some(&own), Some(&pbp)], [&[], &[]]);
    }
    for c in &mut all[1].components {
        wants(c, [Some("a00"), Some("a63")], [&[], &[]]);
    }
    let (last, others) = all[2].components.split_last_mut().expect("64");
    last.partition = "p0".into();
    others.iter_mut().for_each(unplaced);
    for (i, a) in all[3].apps.values_mut().enumerate() {
        a.name = format!("c{}", 63 - i);
    }
    all.into()
}
