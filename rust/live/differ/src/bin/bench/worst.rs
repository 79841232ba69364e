//! The slowest presets that we could build, through every function.
use crate::presets::{APPLICATION, Job, LISTING, READ, VALIDATE, both};
use crate::texts::filled;

const HEAD: &str = "\
| preset | bytes | runs | port | original | port / original |
|---|---|---|---|---|---|";
const NOTE: &str = "
Presets that all functions accept; times as in the tables of single presets, plans with the last of the
applications.";

pub fn worst() {
    table("preset_read", &READ);
    table("preset_validate", &VALIDATE);
    table("preset_plan", &APPLICATION);
    table("preset_listing", &LISTING);
    println!("{NOTE}");
}

fn table<T>(called: &str, job: &Job<T>) {
    println!("\n`{called}`:\n\n{HEAD}");
    for (name, text) in texts() {
        let (bytes, times) = (text.len(), both(job, name, &text).columns());
        println!("| {name} | {bytes} | {times} |");
    }
}

fn texts() -> [(&'static str, String); 6] {
    [
        ("one old key among 2,000 values", old_key()),
        (
            "lists full, 32 features in each",
            features(|i| format!("p{i}"), |_| 0),
        ),
        (
            "two packages for all, features in other orders",
            features(|_| "p".into(), |i| i),
        ),
        (
            "one package for all, features in arrays in other orders",
            arrays(),
        ),
        (
            "long names that differ at their end",
            names(|i, rest| format!("{rest}{i:02}")),
        ),
        (
            "long names that differ in their middle",
            names(|i, rest| {
                let (before, after) = rest.split_at(rest.len() / 2);
                format!("{before}{i:02}{after}")
            }),
        ),
    ]
}

const SMALL: &str = "[[partition]]\nname = \"a\"\noffset = 0\nsize = 4096\n\
                     [[component]]\nname = \"c\"\npackage = \"p\"\npartition = \"a\"\n\
                     [apps.k]\npartition = \"a\"\n";

// Old under the root, so that a search for it goes over nearly all values.
fn old_key() -> String {
    let values = "b=1\n".repeat(2_000);
    let lines = filled(&format!("{SMALL}x.y=1\n{values}"), "[x]\n", 9_000);
    lines.replacen(SMALL, "", 1) + SMALL
}

// 128 lists of 32 words, each begun at another one, of packages named by `package`.
fn features(package: fn(usize) -> String, from: fn(usize) -> usize) -> String {
    let words = |n: usize| -> String {
        let each = (0..32).map(|i| (i + from(n)) % 32);
        each.map(|i| format!("f{i:x} ")).collect()
    };
    let comps = (0..64).map(|i| {
        let (own, pbp) = (words(i), words(i + 17));
        let package = package(i);
        format!(
            "[[component]]\nname = \"c{i}\"\npackage = \"{package}\"\npbp_package = \"{package}x\"\n\
             features = \"{own}\"\npbp_features = \"{pbp}\"\npartition = \"a\"\n"
        )
    });
    let apps = (0..64).map(|i| {
        let words = words(i);
        format!("[apps.k{i}]\npartition = \"a\"\nfeatures = \"{words}\"\n")
    });
    let part = "[[partition]]\nname = \"a\"\noffset = 0\nsize = 4096\n".to_string();
    part + &comps.chain(apps).collect::<String>()
}

// As many arrays of 32 words as values may be made for.
fn arrays() -> String {
    let words = |n: usize| -> String {
        let each = (0..32).map(|i| (i + n) % 32);
        each.map(|i| format!("\"f{i:x}\",")).collect()
    };
    let comps = (0..54).map(|i| {
        let words = words(i);
        format!(
            "[[component]]\nname = \"c{i}\"\npackage = \"p\"\npartition = \"a\"\nfeatures = [{words}]\n"
        )
    });
    SMALL.replace("package = \"p\"", "file = \"f\"") + &comps.collect::<String>()
}

// A comparison that begins where they are alike goes over nearly all of both names.
fn names(name: fn(usize, &str) -> String) -> String {
    let long = |i: usize, length: usize| name(i, &"n".repeat(length - 2));
    let parts = (0..32).map(|i| {
        let (name, offset) = (long(i, 60), i * 4_096);
        format!("[[partition]]\nname = \"{name}\"\noffset = {offset}\nsize = 4096\n")
    });
    let comps = (0..64).map(|i| {
        let (name, package, part) = (long(i, 32), long(i, 40), long(i % 32, 60));
        format!(
            "[[component]]\nname = \"{name}\"\npackage = \"{package}\"\npartition = \"{part}\"\n"
        )
    });
    let apps = (0..64).map(|i| {
        let (key, part) = (long(i, 31), long(i % 32, 60));
        format!("[apps.{key}]\nname = \"{key}k\"\npartition = \"{part}\"\n")
    });
    parts.chain(comps).chain(apps).collect()
}
