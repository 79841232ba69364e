//! Names that a reader of listings takes for something else where they are not quoted, or not rightly.
use super::plan::random as plans;
use super::random::Rng;
use super::records::random as records;
use super::validate::plain::insert;
use super::validate::{sound, spelled};
use crate::model::answer::records::Preset;
use crate::model::records::{filename_for, read};
use crate::model::validate::reference;
use std::collections::BTreeMap;
use std::sync::LazyLock;

/// How a name is written between the quotes of a preset, and how it is printed between those of a listing.
pub type Name = (&'static str, &'static str);

/// None of them is longer than names may be, or has a dot in it, or a slash, which files and keys are cut at.
pub const ODD: &[Name] = &[
    ("", ""),
    // blanks
    ("head data", "head data"),
    (" ", " "),
    ("  b  c  ", "  b  c  "),
    // quotes and backslashes
    (r#"\""#, r#"\""#),
    (r#"\"\""#, r#"\"\""#),
    (r#"\"b\""#, r#"\"b\""#),
    (r#"b\"c"#, r#"b\"c"#),
    (r"\\", r"\\"),
    (r"\\\\", r"\\\\"),
    (r"b\\", r"b\\"),
    (r#"\\\""#, r#"\\\""#),
    (r#"\"\\"#, r#"\"\\"#),
    (r"\\n", r"\\n"),
    (r"\\\n", r"\\\n"),
    (r"\\\\n", r"\\\\n"),
    // line ends and TABs, by their escapes and as they are
    (r"\n", r"\n"),
    (r"\t", r"\t"),
    (r"\r", r"\r"),
    ("\n", r"\n"),
    ("\t", r"\t"),
    ("\r", r"\r"),
    ("b\n\nc", r"b\n\nc"),
    ("b\t\\tc", r"b\t\tc"),
    // the CR of a CRLF is dropped, another is not
    (r"b\r\nc", r"b\r\nc"),
    ("b\r\nc", r"b\nc"),
    ("b\r\r\nc", r"b\r\nc"),
    ("b\n\rc", r"b\n\rc"),
    ("b\\r\nc", r"b\r\nc"),
    // all other bytes, also such as end a line elsewhere
    ("\0", "\0"),
    ("b\0c", "b\0c"),
    ("\u{1}\u{1b}[2J\u{7f}", "\u{1}\u{1b}[2J\u{7f}"),
    (
        "b\u{b}\u{c}\u{1c}\u{1d}\u{1e}c",
        "b\u{b}\u{c}\u{1c}\u{1d}\u{1e}c",
    ),
    ("\u{85}", "\u{85}"),
    ("b\u{85}c", "b\u{85}c"),
    ("b\u{2028}\u{2029}c", "b\u{2028}\u{2029}c"),
    ("\u{a0}é漢😀", "\u{a0}é漢😀"),
    ("#$'`{}[]", "#$'`{}[]"),
    // fields, and pieces of lines
    ("-", "-"),
    ("--", "--"),
    (r#"\"-\""#, r#"\"-\""#),
    ("0", "0"),
    ("app", "app"),
    ("open", "open"),
    (";", ";"),
    (
        r#"b\" 0 4096 open\npart \"c"#,
        r#"b\" 0 4096 open\npart \"c"#,
    ),
    ("b\nstem \\\"c", r#"b\nstem \"c"#),
    (r"ok\nrefused 40 3 0", r"ok\nrefused 40 3 0"),
];

/// What is printed as two bytes, by its escape and as it is.
const ESCAPED: [Name; 8] = [
    (r#"\""#, r#"\""#),
    (r"\\", r"\\"),
    (r"\n", r"\n"),
    (r"\t", r"\t"),
    (r"\r", r"\r"),
    ("\n", r"\n"),
    ("\t", r"\t"),
    ("\r", r"\r"),
];

/// Also such as have 32 bytes, each of which is printed as two.
pub fn all() -> Vec<(String, String)> {
    let own = ODD
        .iter()
        .map(|(written, shown)| (written.to_string(), shown.to_string()));
    let full = ESCAPED.map(|(written, shown)| (written.repeat(32), shown.repeat(32)));
    let mixed: (Vec<_>, Vec<_>) = ESCAPED.into_iter().cycle().take(32).unzip();
    let mixed = (mixed.0.concat(), mixed.1.concat());
    own.chain(full).chain([mixed]).collect()
}

/// A preset with that name wherever there can be one, and its listing; the stem is its package or the board's name.
pub fn everywhere((written, shown): &(String, String), leads: bool) -> (String, String) {
    let kind = if leads { "app" } else { "raw" };
    let mut text = format!(
        "[board]\nname = \"{written}\"\n[[partition]]\nname = \"a\"\noffset = 0\nsize = 4096\n\
         [[component]]\nname = \"{written}\"\nkind = \"{kind}\"\npackage = \"{written}\"\n\
         partition = \"a;{written}\"\n"
    );
    let mut lines = vec![
        "ok d13x spi-nor 1 1 0 13".to_string(),
        "part \"a\" 0 4096 open".to_string(),
        format!("comp \"{shown}\" {kind} \"a;{shown}\""),
        format!("build \"{shown}\" 0"),
        format!("stem \"{shown}\"\n"),
    ];
    // neither a partition nor an application goes without a name
    if !written.is_empty() {
        text += &format!(
            "[[partition]]\nname = \"{written}\"\noffset = 4096\nsize = 4096\n\
             [apps.\"{written}\"]\nname = \"{written}\"\npartition = \"{written}\"\n"
        );
        lines[0] = "ok d13x spi-nor 2 1 1 21".into();
        lines.insert(2, format!("part \"{shown}\" 4096 8192 open"));
        lines.insert(4, format!("app \"{shown}\" \"{shown}\" \"{shown}\""));
    }
    (text, lines.join("\n"))
}

// As a preset has them once it is read.
static READ: LazyLock<Vec<String>> = LazyLock::new(|| {
    let each = all().into_iter();
    each.map(|(written, _)| {
        let text = format!("[board]\nname = \"{written}\"\n");
        let read = read(text.as_bytes(), b"").expect("records");
        read.preset.board.name
    })
    .collect()
});

const PIECES: [&str; 16] = [
    "\"", "\"", "\\", "\\", "\n", "\t", "\r", " ", " ", "-", "\0", "\u{85}", "n", "t", "r", "é",
];

/// One of these names, or one in such pieces, of 32 bytes at most.
pub fn name(r: &mut Rng) -> String {
    if r.below(2) == 0 {
        return READ[r.below(READ.len())].clone();
    }
    let count = 1 + [r.below(4), r.below(16)][r.below(2)];
    (0..count).map(|_| r.pick(&PIECES)).collect()
}

/// A name to lend: any, or one of these, seldom a long one.
pub fn lent(r: &mut Rng) -> Vec<u8> {
    match r.below(8) {
        0..=4 => records::name(r),
        5..=6 => name(r).into_bytes(),
        _ => name(r).repeat(1 + r.below(20)).into_bytes(),
    }
}

/// Number `n` of all names that are lent, over and over.
pub fn nth_lent(n: usize) -> &'static [u8] {
    let odd = READ.iter().map(String::as_bytes);
    let mut all = records::NAMES.into_iter().chain(odd).cycle();
    all.nth(n % (records::NAMES.len() + READ.len()))
        .expect("there is no last one")
}

/// A text of a preset that breaks no rule, with many such names.
pub fn text(r: &mut Rng) -> Vec<u8> {
    let mut p = plans::preset(r);
    renamed(r, &mut p);
    spelled::text(r, &p).into_bytes()
}

/// Gives such names to some of what has one; no rule is broken.
pub fn renamed(r: &mut Rng, p: &mut Preset) {
    for change in [board, partitions, components, applications, packages, files] {
        if r.below(2) == 0 {
            change(r, p);
        }
    }
}

fn board(r: &mut Rng, p: &mut Preset) {
    p.board.name = name(r);
}

// What refers to one by its old name does so by the new one; a component cannot by a name that is cut or trimmed.
fn partitions(r: &mut Rng, p: &mut Preset) {
    for i in 0..p.partitions.len() {
        let (old, new) = (p.partitions[i].name.clone(), name(r));
        let taken = new.is_empty() || p.partitions.iter().any(|part| part.name == new);
        let meant = |held: &str| reference(held) == old;
        let referred = p.components.iter().any(|c| meant(&c.partition));
        if taken || referred && reference(&new) != new {
            continue;
        }
        let own = p.components.iter_mut().filter(|c| meant(&c.partition));
        own.for_each(|c| c.partition = sound::reference(r, &new));
        let own = p.apps.values_mut().filter(|a| a.partition == old);
        own.for_each(|a| a.partition.clone_from(&new));
        p.partitions[i].name = new;
    }
}

fn components(r: &mut Rng, p: &mut Preset) {
    for i in 0..p.components.len() {
        let new = name(r);
        if p.components.iter().all(|c| c.name != new) {
            p.components[i].name = new;
        }
    }
}

fn applications(r: &mut Rng, p: &mut Preset) {
    let keys: Vec<_> = p.apps.keys().cloned().collect();
    for key in keys {
        let new = name(r);
        if !new.is_empty()
            && p.apps.values().all(|a| a.name != new)
            && let Some(app) = p.apps.get_mut(&key)
        {
            app.name = new;
        }
    }
}

// One new name for all uses of a package, so that its features stay the same; an application's is a key.
fn packages(r: &mut Rng, p: &mut Preset) {
    let own = p
        .components
        .iter()
        .flat_map(|c| [&c.package, &c.pbp_package]);
    let used = own.flatten().chain(p.apps.keys()).cloned();
    let mut names: BTreeMap<String, String> = used.map(|old| (old.clone(), old)).collect();
    for old in names.keys().cloned().collect::<Vec<_>>() {
        let new = name(r);
        let free = names
            .iter()
            .all(|(own, other)| *own != new && *other != new);
        if free && !(new.is_empty() && p.apps.contains_key(&old)) {
            names.insert(old, new);
        }
    }
    for c in &mut p.components {
        for package in [&mut c.package, &mut c.pbp_package].into_iter().flatten() {
            package.clone_from(&names[package]);
        }
        c.filename = filename_for(&c.bin, &c.file, &c.package);
    }
    for (key, mut app) in std::mem::take(&mut p.apps) {
        app.package.clone_from(&names[&key]);
        insert(p, app);
    }
}

// Files and binaries that a stem may be taken from.
fn files(r: &mut Rng, p: &mut Preset) {
    for c in &mut p.components {
        if c.file.is_some() {
            let (folder, end) = (r.pick(&["", "d/", "d e/"]), r.pick(&["", ".bin", ".x y"]));
            c.file = Some(format!("{folder}{}{end}", name(r)).into());
        }
        if r.below(3) == 0 {
            c.bin = Some(name(r));
        }
        c.filename = filename_for(&c.bin, &c.file, &c.package);
    }
}
