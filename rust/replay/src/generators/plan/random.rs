//! Random presets to plan: sound ones, changed in what plans go by.
use crate::generators::names::renamed;
use crate::generators::random::Rng;
use crate::generators::validate::near::{Near, drawn, wants};
use crate::generators::validate::plain::{app, insert, nth_app, open, texts};
use crate::generators::validate::{random as validate, sound, spelled};
use crate::model::answer::records::Preset;
use crate::model::records::{bare, filename_for};
use crate::model::validate::reference;
use preset::{ComponentKind, ComponentSpec};

/// A text: mostly of a preset that breaks no rule, else any that validation is tried on.
pub fn text(r: &mut Rng) -> Vec<u8> {
    if r.below(6) == 0 {
        return validate::text(r);
    }
    let preset = preset(r);
    spelled::text(r, &preset).into_bytes()
}

/// A preset that breaks no rule.
pub fn preset(r: &mut Rng) -> Preset {
    let mut p = match r.below(4_000) {
        0 => sound::wide(r),
        _ => sound::preset(r),
    };
    for _ in 0..r.below(5) {
        CHANGES[r.below(CHANGES.len())](r, &mut p);
    }
    p
}

/// Changes that break no rule.
pub const CHANGES: [Near; 9] = [
    named_alike,
    shared,
    unplaced,
    bins,
    kinds,
    files,
    other_paths,
    references,
    renamed,
];

/// A component's kinds.
pub const KINDS: [ComponentKind; 3] = [ComponentKind::App, ComponentKind::Pbp, ComponentKind::Raw];

// 81: an application is called like a component.
fn named_alike(r: &mut Rng, p: &mut Preset) {
    let free = |p: &Preset, name: &str| !name.is_empty() && p.apps.values().all(|a| a.name != name);
    let name = p.components[r.below(p.components.len())].name.clone();
    if !p.apps.is_empty() && free(p, &name) {
        let at = r.below(p.apps.len());
        nth_app(p, at).name = name;
    }
}

// Features by package, so that a package that is used again has the same.
const PACKAGES: [(Option<&str>, &[&str]); 4] = [
    (Some("p"), &["f"]),
    (Some("q"), &["f", "g"]),
    (Some("p2"), &["g"]),
    (None, &["g"]),
];

// Few packages for all components and some applications.
fn shared(r: &mut Rng, p: &mut Preset) {
    for c in &mut p.components {
        let [own, pbp] = [drawn(r, &PACKAGES), drawn(r, &PACKAGES)];
        wants(c, [own.0, pbp.0], [own.1, pbp.1]);
        c.filename = filename_for(&c.bin, &c.file, &c.package);
    }
    let open = open(p);
    for (key, features) in PACKAGES {
        if let Some(key) = key
            && r.below(2) == 0
            && p.apps.len() < 60
            && !open.is_empty()
        {
            let mut more = app(key, &open[r.below(open.len())]);
            more.features = texts(features);
            insert(p, more);
        }
    }
}

// Updaters that go nowhere, in front or anywhere.
fn unplaced(r: &mut Rng, p: &mut Preset) {
    for _ in 0..1 + r.below(2) {
        let count = p.components.len();
        if count > 60 {
            return;
        }
        let mut more = ComponentSpec {
            kind: drawn(r, &KINDS),
            file: Some(r.pick(&PATHS).into()),
            updater: true,
            ram: Some(0),
            ..bare(&format!("u{count}"))
        };
        more.filename = filename_for(&more.bin, &more.file, &more.package);
        let at = [0, r.below(count + 1)][r.below(2)];
        p.components.insert(at, more);
    }
}

// Given or not at each use of a package.
fn bins(r: &mut Rng, p: &mut Preset) {
    for c in &mut p.components {
        let bins = [None, None, Some("one"), Some("two"), Some("")];
        c.bin = drawn(r, &bins).map(String::from);
    }
}

fn kinds(r: &mut Rng, p: &mut Preset) {
    for c in &mut p.components {
        c.kind = drawn(r, &KINDS);
    }
}

/// Paths whose names and stems are told apart in every way, and such as joining would change.
pub const PATHS: [&str; 28] = [
    "a/.b",
    "x.tar.gz",
    "..",
    ".",
    "",
    "/",
    "blob",
    "blobs/x.bin",
    ".b",
    "a.",
    "a..",
    "a..b",
    "...",
    "..a",
    "..a.b",
    "a/..",
    "a/../b.c",
    "a.b/",
    "a.b/.",
    "./x.y",
    "/abs/x.y",
    "//x.y",
    "../x.y",
    "a\\b.c",
    "é.漢",
    ". .",
    "x.y ",
    "a/\u{3000}",
];

// Files in place of packages, mostly as what may lead.
fn files(r: &mut Rng, p: &mut Preset) {
    for c in &mut p.components {
        if r.below(2) == 0 {
            c.kind = [ComponentKind::App, c.kind][r.below(2)];
            c.bin = c.bin.take().filter(|_| r.below(4) == 0);
            (c.package, c.file) = (None, Some(r.pick(&PATHS).into()));
            c.filename = filename_for(&c.bin, &c.file, &c.package);
        }
    }
}

// A package that is both of a component's stays, since its features are then those of the PBP.
fn other_paths(r: &mut Rng, p: &mut Preset) {
    for c in &mut p.components {
        let both = c.package.is_some() && c.package == c.pbp_package;
        match r.below(4) {
            0 => c.private = Some(r.pick(&PATHS).into()),
            1 if !both => (c.pbp, c.pbp_package) = (Some(r.pick(&PATHS).into()), None),
            _ => {}
        }
    }
}

// Cut and trimmed to a partition's name, where that is what is left of it; an application's exactly.
fn references(r: &mut Rng, p: &mut Preset) {
    let open = open(p);
    for c in p.components.iter_mut().filter(|c| !c.partition.is_empty()) {
        let name = reference(&c.partition).to_string();
        c.partition = sound::reference(r, &name);
    }
    for a in p.apps.values_mut() {
        a.partition = open[r.below(open.len())].clone();
    }
}
