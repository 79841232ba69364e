//! From a text to records, to a verdict, to a plan, to the lines of the listing.
use crate::texts::{EXAMPLES, example};
use crate::timing::{Times, measured};
use differ::listing::original::rendered;
use oracle::preset::{ComponentKind, ImagePlan, PlannedComponent, Preset, Selection};
use port::{document, plans, records};
use preset::owned;
use replay::generators::large::{escaped, full, long_names};
use replay::harness::ask;
use replay::harness::faults::{Input, Rooms, least};
use std::fmt::{Arguments, Write};
use std::hint::black_box;
use std::path::Path;

const HEAD: &str = "\
| preset | bytes | partitions | components | applications | runs | port | original | port / original |
|---|---|---|---|---|---|---|---|---|";
pub const READ_NOTE: &str = "
From text to records. The port's time is `preset_read`, which checks that the bytes are UTF-8, zeroes both
rooms and judges every field; records are views of the rooms. The original's time is `Preset::parse`, with
the preset it makes dropped again.";
pub const VALIDATE_NOTE: &str = "
From text to a verdict. The port's time is `preset_validate`, which does all that `preset_read` does and
then goes through the rules. The original's time is `Preset::parse` and `validate`, with the preset dropped
again.";
pub const BOOT_CHAIN_NOTE: &str = "
From text to the plan of the boot chain. The port's time is `preset_plan`, which does all that
`preset_validate` does and then judges the selection; the plan is views of the rooms. The original's time is
`Preset::parse` and `plan`, which validates, with the preset and the plan dropped again.";
pub const APPLICATION_NOTE: &str = "
The same with the last of the applications.";
pub const WHOLE_NOTE: &str = "
The same, and every view of the plan called once, its texts and features copied out.";
pub const LISTING_NOTE: &str = "
From text to lines. The port's time is `preset_listing`, which plans the boot chain and writes the lines
into the output. The original's time is `Preset::parse`, `plan` and writing the lines into a new `String`,
names without quotes, all dropped again.";
const NAMES_NOTE: &str = "
The same where names are as long as they may be, and where all of their bytes are escaped.";

/// What both sides do with a preset and the key of one of its applications, and whether they leave the
/// same; the last is what the output holds.
pub struct Job<T> {
    /// The refusal's number.
    pub ours: fn(Input, Rooms) -> u32,
    pub theirs: fn(&str, &str) -> T,
    same: fn(records::Rooms, &str, &str, &[u8]) -> bool,
}

pub const READ: Job<Preset> = Job {
    ours: |i, [store, tree, _]| records::read(i.text, i.name, store, tree).number,
    theirs: |text, _| parsed(text),
    same: |_, _, _, _| true,
};

pub const VALIDATE: Job<Preset> = Job {
    ours: |i, [store, tree, _]| records::validate(i.text, i.name, store, tree).number,
    theirs: |text, _| {
        let preset = parsed(text);
        preset.validate().expect("no rule is broken");
        preset
    },
    ..READ
};

pub const BOOT_CHAIN: Job<(Preset, ImagePlan)> = Job {
    ours: |i, [store, tree, _]| plans::plan(i.text, i.name, None.into(), store, tree).number,
    theirs: |text, _| planned(text, &Selection::Bootloader),
    same: |rooms, text, _, _| same_plan(rooms, text, None),
};

pub const APPLICATION: Job<(Preset, ImagePlan)> = Job {
    ours: |i, [store, tree, _]| plans::plan(i.text, i.name, Some(i.key).into(), store, tree).number,
    theirs: |text, key| planned(text, &Selection::App(key.into())),
    same: |rooms, text, key, _| same_plan(rooms, text, Some(key)),
};

pub const WHOLE: Job<(Preset, ImagePlan)> = Job {
    ours: |i, [store, tree, _]| {
        let selection = Some(i.key).into();
        let got = plans::plan(i.text, i.name, selection, store, tree);
        let made = got.made as usize;
        let plan = owned::plan(records::Rooms { tree, store, made }, i.name, selection);
        black_box(plan).expect("a plan");
        got.number
    },
    ..APPLICATION
};

pub const LISTING: Job<(Preset, ImagePlan, String)> = Job {
    ours: |i, [store, tree, out]| port::listing::list(i.text, i.name, store, tree, out).number,
    theirs: |text, _| {
        let (preset, plan) = planned(text, &Selection::Bootloader);
        let lines = unquoted(&preset, &plan);
        (preset, plan, lines)
    },
    same: |rooms, text, _, out| {
        let (preset, plan) = planned(text, &Selection::Bootloader);
        out.starts_with(rendered(&preset, &plan, rooms.made).as_bytes())
    },
};

// What is lent, and what the original's file is called.
pub const NAME: &[u8] = b"board";

pub fn parsed(text: &str) -> Preset {
    Preset::parse(text, Path::new("board.toml")).expect("records")
}

fn planned(text: &str, selection: &Selection) -> (Preset, ImagePlan) {
    let preset = parsed(text);
    let plan = preset.plan(selection).expect("a plan");
    (preset, plan)
}

// The lines as the original would print them: quotes are no work of its own, nor is the count of values.
pub fn unquoted(p: &Preset, plan: &ImagePlan) -> String {
    let mut out = String::new();
    let (chip, media) = (plan.board.chip.name(), plan.image.media.name());
    let (parts, comps, apps) = (p.partitions.len(), p.components.len(), p.apps.len());
    let mut line = |l: Arguments| out.write_fmt(l).expect("a String takes all");
    line(format_args!("ok {chip} {media} {parts} {comps} {apps} 0\n"));
    for part in &plan.partitions {
        let (name, start) = (&part.name, part.offset);
        let end = u64::from(start) + u64::from(part.size);
        line(format_args!("part {name} {start} {end} open\n"));
    }
    for PlannedComponent { spec, .. } in &plan.components {
        let kind = match spec.kind {
            ComponentKind::App => "app",
            ComponentKind::Pbp => "pbp",
            ComponentKind::Raw => "raw",
        };
        let (name, place) = (&spec.name, dashed(&spec.partition));
        line(format_args!("comp {name} {kind} {place}\n"));
    }
    for (key, app) in &p.apps {
        let (name, place) = (&app.name, dashed(&app.partition));
        line(format_args!("app {key} {name} {place}\n"));
    }
    for build in &plan.required_builds {
        let (package, count) = (&build.package, build.features.len());
        line(format_args!("build {package} {count}\n"));
    }
    line(format_args!("stem {}\n", plan.stem));
    out
}

fn dashed(reference: &str) -> &str {
    if reference.is_empty() { "-" } else { reference }
}

fn same_plan(rooms: records::Rooms, text: &str, key: Option<&str>) -> bool {
    let got = owned::plan(rooms, NAME, key.map(str::as_bytes).into());
    let want = differ::plan::original::plan(&parsed(text), key);
    ask::plan::difference(&got.expect("a plan"), &want.expect("a plan")).is_none()
}

/// One table of a job.
pub fn presets<T>(job: &Job<T>, note: &str) {
    println!("\n{HEAD}");
    for name in EXAMPLES {
        row(job, name, &example(name));
    }
    row(job, "all lists full", &full());
    println!("{note}");
}

/// Listings of long names.
pub fn names() {
    println!("\n{HEAD}");
    row(&LISTING, "names of 32 letters", &long_names(false));
    row(&LISTING, "names of 32 escaped bytes", &long_names(true));
    row(&LISTING, "a package of 32,000 TABs", &longest());
    println!("{NAMES_NOTE}");
}

// With an application in place of some of the TABs.
fn longest() -> String {
    let app = "\n[apps.k]\npartition = \"a\"\n";
    escaped().replacen(&"\t".repeat(app.len()), "", 1) + app
}

fn row<T>(job: &Job<T>, name: &str, text: &str) {
    let p = parsed(text);
    let (bytes, parts) = (text.len(), p.partitions.len());
    let (comps, apps) = (p.components.len(), p.apps.len());
    let times = both(job, name, text).columns();
    println!("| {name} | {bytes} | {parts} | {comps} | {apps} | {times} |");
}

/// Both sides on one preset with its last application, once they are seen to leave the same.
pub fn both<T>(job: &Job<T>, name: &str, text: &str) -> Times {
    let (key, _) = parsed(text).apps.pop_last().expect("an application");
    let mut rooms = least(NAME).map(|length| vec![0; length]);
    let [store, tree, _] = &mut rooms;
    let made = document::read(text.as_bytes(), store, tree).made as usize;
    let mut ours = || {
        let input = Input {
            text: black_box(text).as_bytes(),
            name: NAME,
            key: key.as_bytes(),
        };
        let number = (job.ours)(input, rooms.each_mut().map(Vec::as_mut_slice));
        assert_eq!(number, 0, "{name}");
    };
    ours();
    let times = measured(ours, || (job.theirs)(black_box(text), &key));
    let [store, tree, out] = &rooms;
    let rooms = records::Rooms { tree, store, made };
    let got = owned::preset(rooms, NAME).expect("records");
    let want = differ::records::original::read(text, NAME).expect("records");
    let difference = ask::records::difference(&got, &want);
    assert_eq!(difference, None, "{name}: records");
    assert!((job.same)(rooms, text, &key, out), "{name}: plans or lines");
    times
}
