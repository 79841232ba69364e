//! Presets with nothing in them that could be missing.
use crate::model::answer::records::Preset;
use crate::model::records::{self, bare, belongings};
use crate::model::validate::erase_block;
use preset::{AppSpec, Chip, ComponentSpec, PartitionSpec};
use std::sync::LazyLock;

fn read(text: &str) -> Preset {
    let read = records::read(text.as_bytes(), b"board");
    read.expect("records").preset
}

// An application with every default.
static BARE: LazyLock<AppSpec> = LazyLock::new(|| {
    let (_, app) = read("[apps.a]").apps.pop_first().expect("one");
    app
});

/// An application with nothing but a key and a partition.
pub fn app(key: &str, partition: &str) -> AppSpec {
    AppSpec {
        package: key.into(),
        name: key.into(),
        partition: partition.into(),
        filename: format!("{key}.aic"),
        ..BARE.clone()
    }
}

/// A list as records hold it.
pub fn texts(items: &[&str]) -> Vec<String> {
    items.iter().copied().map(String::from).collect()
}

/// Application number `n` in byte order of package.
pub fn nth_app(p: &mut Preset, n: usize) -> &mut AppSpec {
    p.apps.values_mut().nth(n).expect("so many applications")
}

/// Puts an application in, in place of one that has its key.
pub fn insert(p: &mut Preset, app: AppSpec) {
    p.apps.insert(app.package.clone(), app);
}

/// The names of the partitions that applications may lie in.
pub fn open(p: &Preset) -> Vec<String> {
    let open = p.partitions.iter().filter(|part| !part.locked);
    open.map(|part| part.name.clone()).collect()
}

/// A board and an image with every default, and so many partitions, components and applications.
pub fn plain(chip: Chip, counts: [u32; 3]) -> Preset {
    let (word, ..) = belongings(chip);
    lists(read(&format!("[board]\nchip = \"{word}\"")), counts)
}

/// With so many of them instead: one block for partition `pi`, component `ci` of package `p` and
/// application `a0i` for it.
pub fn lists(mut p: Preset, counts: [u32; 3]) -> Preset {
    let [partitions, components, apps] = counts;
    let block = erase_block(p.image.media);
    let name = |i: u32| format!("p{}", i % partitions);
    let part = |i: u32| PartitionSpec {
        name: name(i),
        offset: i * block,
        size: block,
        locked: false,
    };
    let built = |i: u32| ComponentSpec {
        package: Some("p".into()),
        filename: "p".into(),
        partition: name(i),
        ..bare(&format!("c{i}"))
    };
    let used = |i: u32| app(&format!("a{i:02}"), &name(i));
    p.partitions = (0..partitions).map(part).collect();
    p.components = (0..components).map(built).collect();
    p.apps.clear();
    (0..apps).for_each(|i| insert(&mut p, used(i)));
    p
}
