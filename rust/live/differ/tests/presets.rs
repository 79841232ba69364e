//! The presets of this repository are whole: the original reads, validates and plans them.
use oracle::preset::{Chip, Media, Preset, Selection};
use std::path::{Path, PathBuf};

fn folder() -> PathBuf {
    let here = Path::new(env!("CARGO_MANIFEST_DIR"));
    let root = here.ancestors().nth(3).expect("a root above");
    root.join("presets")
}

// Reads, validates and plans the boot chain and every application.
fn whole(name: &str) -> Preset {
    let path = folder().join(name);
    let text = std::fs::read_to_string(&path).unwrap_or_else(|e| panic!("{name}: {e}"));
    assert!(text.len() <= port::text::TEXT_MAX, "{name} is too long");
    let preset =
        Preset::parse(&text, Path::new("board.toml")).unwrap_or_else(|e| panic!("{name}: {e:#}"));
    preset
        .validate()
        .unwrap_or_else(|e| panic!("{name}: {e:#}"));
    let apps = preset.apps.keys().cloned().map(Selection::App);
    for selection in apps.chain([Selection::Bootloader]) {
        let plan = preset.plan(&selection);
        plan.unwrap_or_else(|e| panic!("{name}, {selection:?}: {e:#}"));
    }
    differ::compare::compare_long(&text).unwrap_or_else(|e| panic!("{name}: {e}"));
    preset
}

// What makes a preset worth reading: all sorts of entries are in it.
fn rich(name: &str, chip: Chip, media: Media, erase: u32) {
    let preset = whole(name);
    assert_eq!((preset.board.chip, preset.image.media), (chip, media));
    assert_eq!(preset.image.media.erase_size(), erase);
    assert!(preset.partitions.len() >= 4, "{name}: partitions");
    assert!(
        preset.components.iter().any(|c| c.updater),
        "{name}: updater"
    );
    assert!(
        preset.components.iter().any(|c| c.pbp_package.is_some()),
        "{name}: PBP"
    );
    assert!(preset.apps.len() >= 5, "{name}: applications");
}

#[test]
fn example() {
    let preset = whole("example.toml");
    let plan = preset.plan(&Selection::Bootloader).expect("planned above");
    assert_eq!(
        (plan.stem.as_str(), plan.required_builds.len()),
        ("loader", 1)
    );
}

#[test]
fn stage() {
    rich("stage-d13x.toml", Chip::D13x, Media::SpiNor, 4_096);
}

#[test]
fn tour() {
    rich("tour-d21x.toml", Chip::D21x, Media::SpiNand, 131_072);
}

#[test]
fn all_of_the_folder() {
    let files = std::fs::read_dir(folder()).expect("presets/");
    let names = files.map(|f| f.expect("an entry").file_name());
    for name in names {
        whole(name.to_str().expect("a plain name"));
    }
}
