//! Presets that break no rule.
use super::plain::{app, lists, texts};
use crate::generators::random::Rng;
use crate::model::answer::records::Preset;
use crate::model::records::{bare, belongings, filename_for};
use crate::model::validate::erase_block;
use preset::{AppSpec, BoardInfo, Chip, ComponentKind, ComponentSpec, ImageInfo, PartitionSpec};
use std::collections::BTreeMap;

// Names that a component can refer to, and such as only an application finds.
const PLAIN: [&str; 8] = ["boot", "app", "env", "é漢", "a b", "x#\"]\\", "-", "B\n\tC"];
const ODD: [&str; 6] = [" boot", "app ", "boot;mtd", ";", "\u{3000}", "env\u{A0}"];

/// Names of 32 bytes, with characters of one byte to four.
pub fn brim(r: &mut Rng) -> String {
    let (c, count, rest) = [
        ("n", 32, ""),
        ("é", 16, ""),
        ("漢", 10, "ab"),
        ("😀", 8, ""),
    ][r.below(4)];
    c.repeat(count) + rest
}

/// Features by package, so that one package has one set of them.
pub const PACKAGES: [(&str, &[&str]); 8] = [
    ("loader", &[]),
    ("spl", &[]),
    ("pbp", &["f"]),
    ("tool", &["f", "g"]),
    ("desk", &["g"]),
    ("q r", &["", "x y"]),
    ("é", &["f", "é"]),
    ("", &["x"]),
];

// As many of these, in another order.
fn some<'a>(r: &mut Rng, from: &[&'a str], count: usize) -> Vec<&'a str> {
    let mut left = from.to_vec();
    let each = (0..count.min(from.len())).map(|_| left.swap_remove(r.below(left.len())));
    each.collect()
}

pub fn preset(r: &mut Rng) -> Preset {
    let chip = [Chip::D13x, Chip::D21x][r.below(2)];
    let partitions = partitions(r, chip);
    let names: Vec<_> = partitions.iter().map(|p| p.name.clone()).collect();
    let mut p = Preset {
        board: board(r, chip),
        image: image(r, chip),
        partitions,
        components: components(r, &names),
        apps: applications(r, &names),
    };
    if r.below(3) == 0 {
        lock(r, &mut p);
    }
    p
}

// Most partitions that no application lies in; components lie in them all the same, also in the first.
fn lock(r: &mut Rng, p: &mut Preset) {
    for part in &mut p.partitions {
        let claimed = p.apps.values().any(|app| app.partition == part.name);
        part.locked = !claimed && r.below(4) > 0;
    }
}

/// With all lists full, so that entries far down are met.
pub fn wide(r: &mut Rng) -> Preset {
    let p = preset(r);
    lists(p, [32, 64, 64])
}

// Both widths may be named, so long as the chip's own counts.
fn board(r: &mut Rng, chip: Chip) -> BoardInfo {
    let (_, usual, _) = belongings(chip);
    let others = match chip {
        Chip::D13x => [
            "riscv32",
            "riscv64-riscv32",
            "xriscv32riscv64",
            "riscv3riscv32",
        ],
        Chip::D21x => ["riscv64", "riscv6-riscv64", "RISCV32-riscv64", "\nriscv64"],
    };
    let target = match r.below(3) {
        0 => r.pick(&others),
        _ => usual,
    };
    BoardInfo {
        name: r.pick(&["board", "board", "stage", ""]).into(),
        chip,
        target: target.into(),
        profile: r.pick(&["release", "dev", " "]).into(),
    }
}

fn image(r: &mut Rng, chip: Chip) -> ImageInfo {
    let (word, _, media) = belongings(chip);
    let boot_app = match r.below(4) {
        0 => brim(r),
        _ => r.pick(&["", "", "desk"]).into(),
    };
    ImageInfo {
        platform: word.into(),
        product: r.pick(&["unknown", "desk", ""]).into(),
        version: r.pick(&["0.0.0", "2.4"]).into(),
        media,
        media_dev_id: r.below(2) as u32,
        media_id: r.pick(&["", "P=2K,B=128K"]).into(),
        boot_app,
    }
}

// One after the other, some with room between them, the last one seldom up to the last block.
fn partitions(r: &mut Rng, chip: Chip) -> Vec<PartitionSpec> {
    let (.., media) = belongings(chip);
    let block = erase_block(media);
    let mut names = some(r, &PLAIN, 1);
    let count = r.below(5);
    let others: Vec<_> = PLAIN.iter().chain(&ODD).copied().collect();
    let others: Vec<_> = others.into_iter().filter(|n| *n != names[0]).collect();
    names.extend(some(r, &others, count));
    let (mut out, mut end) = (Vec::new(), 0);
    for name in names {
        let room = if end == 0 {
            0
        } else {
            [0, 0, 0, 1, 7][r.below(5)]
        };
        let (offset, size) = (end + room * block, [1, 1, 2, 5, 64][r.below(5)] * block);
        end = offset + size;
        out.push(PartitionSpec {
            name: name.into(),
            offset,
            size,
            locked: false,
        });
    }
    if r.below(6) == 0 {
        let last = out.last_mut().expect("one at least");
        last.size = 0u32.wrapping_sub(block) - last.offset;
    }
    out
}

const COMPONENTS: [&str; 6] = ["loader", "psram", "", "boot", "é", "lo ader"];

// The first one, or the last, is for the first partition.
fn components(r: &mut Rng, names: &[String]) -> Vec<ComponentSpec> {
    let count = 1 + r.below(4);
    let mut own: Vec<_> = some(r, &COMPONENTS, count)
        .into_iter()
        .map(String::from)
        .collect();
    if r.below(3) == 0 {
        own[0] = brim(r);
    }
    let mut out: Vec<_> = own.iter().map(|name| component(r, name, names)).collect();
    let at = [0, out.len() - 1][r.below(2)];
    out[at].partition = reference(r, &names[0]);
    out
}

fn component(r: &mut Rng, name: &str, names: &[String]) -> ComponentSpec {
    let mut c = bare(name);
    c.kind = [ComponentKind::Raw, ComponentKind::App, ComponentKind::Pbp][r.below(3)];
    let features = source(r, &mut c);
    c.updater = r.below(4) == 0;
    c.ram = (c.updater || r.below(4) == 0).then_some([0, 0x4010_0000][r.below(2)]);
    // names that are trimmed or cut are not referred to
    let found = names.iter().filter(|name| PLAIN.contains(&name.as_str()));
    let found: Vec<_> = found.collect();
    if !c.updater || r.below(2) == 0 {
        let at = r.below(found.len());
        c.partition = reference(r, found[at]);
    }
    c.load_address = (r.below(3) == 0).then_some(0x4070_0001);
    c.with_ext = r.below(3) == 0;
    c.ext_reserve = [0, 0, 512, 1_024, 0xFFFF_FE00][r.below(5)];
    pbp(r, &mut c, features);
    c
}

// A package or a file; what features the package has.
fn source(r: &mut Rng, c: &mut ComponentSpec) -> &'static [&'static str] {
    let (package, features) = PACKAGES[r.below(PACKAGES.len())];
    match r.below(4) {
        0 => c.file = Some(r.pick(&["", "blobs/x.bin", ".."]).into()),
        _ => c.package = Some(package.into()),
    }
    c.bin = (r.below(6) == 0).then(|| "bin".into());
    c.filename = filename_for(&c.bin, &c.file, &c.package);
    c.features = texts(features);
    c.pbp_features = c.features.clone();
    features
}

// Another package beside the first, or the same one, whose features then are those of `pbp_features`.
fn pbp(r: &mut Rng, c: &mut ComponentSpec, features: &[&str]) {
    let (package, own) = PACKAGES[2 + r.below(PACKAGES.len() - 2)];
    match r.below(6) {
        0 => c.pbp = Some(r.pick(&["", "ddr.pbp"]).into()),
        1 => {
            c.pbp_package = Some(package.into());
            c.pbp_features = texts(own);
        }
        2 if c.package.is_some() => {
            c.pbp_package = c.package.clone();
            if !features.is_empty() {
                c.features = texts(&["other"]);
            }
        }
        _ => {}
    }
}

/// What is trimmed and cut to the name.
pub fn reference(r: &mut Rng, name: &str) -> String {
    let around = [
        ("", ""),
        ("", ""),
        ("", ";mtd"),
        (" ", " "),
        ("\t", "\u{3000};a;b"),
        ("", " ;"),
    ];
    let (before, after) = around[r.below(around.len())];
    [before, name, after].concat()
}

const KEYS: [&str; 10] = [
    "desk", "spots", "Z", "é", "q r", "loader", "a]b", "\"", "tool", "name",
];

// In byte order of key; no two have one name.
fn applications(r: &mut Rng, names: &[String]) -> BTreeMap<String, AppSpec> {
    let count = [0, 1, 2, 3, 4][r.below(5)];
    let mut keys = some(r, &KEYS, count);
    keys.sort();
    let each = keys.iter().enumerate();
    each.map(|(i, key)| {
        let name = match r.below(6) {
            0 | 1 if i == 0 => brim(r),
            2 => format!("n {key}"),
            _ => key.to_string(),
        };
        (key.to_string(), application(r, key, &name, names))
    })
    .collect()
}

fn application(r: &mut Rng, key: &str, name: &str, names: &[String]) -> AppSpec {
    let mut a = app(key, &names[r.below(names.len())]);
    a.name = name.into();
    a.filename = format!("{name}.aic");
    if r.below(4) == 0 {
        a.filename = r.pick(&["x.bin", " "]).into();
    }
    let own = PACKAGES.iter().find(|(package, _)| *package == key);
    a.features = texts(own.map_or(&["g", "h"], |(_, features)| features));
    a.load_address = (r.below(2) == 0).then_some([0, 4, 0x4070_0000, 0xFFFF_FFFC][r.below(4)]);
    a
}
