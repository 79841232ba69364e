//! A preset's flash as a [`Drawing`]: from its records, or of a refused one from what its text has of partitions.
use crate::fault::Fault;
use crate::map::{Area, Drawing, Land, LandKind};
use crate::refusal::Section;
use crate::schema::{PartitionSpec, Preset};
use crate::shown;
use crate::tree::Tree;

/// The flash of an accepted preset; `app` is the package of the application that is planned with it.
///
/// ```
/// use preset::{Preset, picture};
///
/// let text = std::fs::read("../../presets/example.toml").unwrap();
/// let preset = Preset::validate(&text, b"example").unwrap();
/// let drawing = picture::accepted(&preset, Some("desk"));
/// assert_eq!(drawing.areas[1].name, "profiles");
/// assert_eq!(drawing.areas[1].lands[0].name, "desk");
/// ```
pub fn accepted(preset: &Preset, app: Option<&str>) -> Drawing {
    Drawing {
        title: title(preset),
        subtitle: subtitle(preset, app),
        areas: areas(preset, app),
        refusal: None,
    }
}

/// The flash of a refused preset, as far as its text has partitions, with the faulty entry marked.
pub fn refused(text: &[u8], name: &[u8], fault: &Fault, app: Option<&str>) -> Option<Drawing> {
    let mut drawing = match Preset::read(text, name) {
        Ok(preset) => Drawing {
            areas: marked(areas(&preset, app), &preset, fault),
            ..accepted(&preset, app)
        },
        Err(_) => Drawing {
            title: shown::bytes(name),
            subtitle: "its records are not whole: only partitions are drawn".into(),
            areas: written(&Tree::read(text)?, fault),
            refusal: None,
        },
    };
    drawing.refusal = Some(fault.to_string());
    (!drawing.areas.is_empty()).then_some(drawing)
}

fn title(preset: &Preset) -> String {
    let (chip, media) = (preset.board.chip.name(), preset.image.media.name());
    format!("{}: {chip}, {media}", shown::plain(&preset.board.name))
}

fn subtitle(preset: &Preset, app: Option<&str>) -> String {
    let (product, version) = (&preset.image.product, &preset.image.version);
    let with = match app.filter(|key| preset.app(key).is_some()) {
        Some(key) => format!("with application {}", shown::plain(key)),
        None => "boot chain".into(),
    };
    let made = shown::plain(&format!("{product} {version}"));
    format!("{made}, {with}")
}

fn areas(preset: &Preset, app: Option<&str>) -> Vec<Area> {
    let areas = preset.partitions.iter().map(|partition| Area {
        name: shown::plain(&partition.name),
        offset: partition.offset.into(),
        size: partition.size.into(),
        lands: lands(preset, partition, app),
        faulty: false,
        locked: partition.locked,
    });
    areas.collect()
}

// What refers to a partition as a plan looks it up; a plan takes the first of a name.
fn lands(preset: &Preset, partition: &PartitionSpec, app: Option<&str>) -> Vec<Land> {
    let first = preset.partitions.iter().find(|p| p.name == partition.name);
    let here = |reference: &str| {
        let found = PartitionSpec::name_of(reference) == partition.name;
        !reference.is_empty() && found && first.is_some_and(|p| std::ptr::eq(p, partition))
    };
    let components = preset.components.iter().filter(|c| here(&c.partition));
    let components = components.map(|c| Land {
        kind: LandKind::Component,
        name: shown::plain(&c.name),
    });
    let apps = preset.apps.values().filter(|a| here(&a.partition));
    let apps = apps.map(|a| Land {
        kind: if app == Some(a.package.as_str()) {
            LandKind::Chosen
        } else {
            LandKind::Application
        },
        name: shown::plain(&a.package),
    });
    components.chain(apps).collect()
}

// The partition that is refused, or the one that the refused component or application lands in.
fn marked(mut areas: Vec<Area>, preset: &Preset, fault: &Fault) -> Vec<Area> {
    let place = fault.refusal.place as usize;
    let reference = match fault.refusal.section {
        _ if fault.refusal.of_whole_list() => None,
        Section::Component => preset.components.get(place).map(|c| &c.partition),
        Section::Application => preset.apps.values().nth(place).map(|a| &a.partition),
        _ => None,
    };
    let found = reference.and_then(|reference| {
        let name = match fault.refusal.number {
            // the rule compares whole names
            67 => reference.as_str(),
            _ => PartitionSpec::name_of(reference),
        };
        preset.partitions.iter().position(|p| p.name == name)
    });
    let found = match fault.refusal.section {
        Section::Partition => Some(place),
        _ => found,
    };
    if let Some(area) = found.and_then(|at| areas.get_mut(at)) {
        area.faulty = true;
    }
    areas
}

// Entries with a name, an offset and a size that a partition may have; others have no place in a drawing.
fn written(tree: &Tree, fault: &Fault) -> Vec<Area> {
    let number = |entry, key| {
        let number = tree.integer(tree.field(entry, key)?)?;
        u32::try_from(number).ok().map(u64::from)
    };
    let faulty = |at| {
        let refusal = fault.refusal;
        refusal.section == Section::Partition && refusal.place as usize == at
    };
    let locked = |entry| tree.boolean(tree.field(entry, "locked")?);
    let entries = tree.list(Section::Partition).into_iter().enumerate();
    let areas = entries.filter_map(|(at, entry)| {
        Some(Area {
            name: shown::plain(&tree.called(Section::Partition, entry)?),
            offset: number(entry, "offset")?,
            size: number(entry, "size")?,
            lands: Vec::new(),
            faulty: faulty(at),
            locked: locked(entry) == Some(true),
        })
    });
    areas.collect()
}
