//! The original's plan of a preset, or what its message says.
use crate::records::original::{Told, board, component, image, partition, read_and};
use crate::validate::original::told_of;
use oracle::preset::{self as theirs, Preset as Theirs, Selection};
use preset::{BuildRequirement, ImagePlan, PlannedComponent, Preset, Source};
use replay::model::records::written;
use std::path::PathBuf;

/// The records of a preset whose boot chain it plans, which validates it first.
pub fn read(text: &str, name: &[u8]) -> Result<Preset, Told> {
    read_and(text, name, |preset| {
        let planned = preset.plan(&Selection::Bootloader);
        let told = planned.map_err(|e| told_of(preset, &e.to_string()));
        told.map(|_| ())
    })
}

/// The plan of a preset that breaks no rule.
pub fn plan(preset: &Theirs, key: Option<&str>) -> Result<ImagePlan, Told> {
    let selection = match key {
        None => Selection::Bootloader,
        Some(key) => Selection::App(key.into()),
    };
    let planned = preset.plan(&selection).map(ours);
    planned.map_err(|e| {
        let told = refused(
            preset,
            key.expect("the boot chain is planned"),
            &e.to_string(),
        );
        told.unwrap_or_else(|| panic!("unknown message: {e}"))
    })
}

// Messages name the board, the key and the application's name, which are arbitrary text.
fn refused(preset: &Theirs, key: &str, message: &str) -> Option<Told> {
    let told = |number, place| Told {
        number,
        entry: Some((5, place)),
    };
    let board = &preset.board.name;
    let undeclared = format!("board preset {board:?} declares no `[apps.{key}]` (declared: ");
    if message.starts_with(&undeclared) {
        return Some(told(80, 0));
    }
    let place = preset.apps.keys().position(|own| own == key)?;
    let (selection, name) = (Selection::App(key.into()), &preset.apps[key].name);
    let reused = format!("application {selection:?} reuses the boot-chain AIC name {name:?}");
    (message == reused).then(|| told(81, place))
}

fn ours(p: theirs::ImagePlan) -> ImagePlan {
    let found = |c: &theirs::PlannedComponent| p.partition(&c.spec.partition).cloned();
    let found: Vec<_> = p.components.iter().map(found).collect();
    let components = p.components.into_iter().zip(found);
    let builds = p.required_builds.into_iter();
    ImagePlan {
        board: board(p.board),
        image: image(p.image),
        partitions: p.partitions.into_iter().map(partition).collect(),
        components: components.map(planned).collect(),
        required_builds: builds.map(build).collect(),
        stem: p.stem,
    }
}

fn planned(
    (mut c, found): (theirs::PlannedComponent, Option<theirs::PartitionSpec>),
) -> PlannedComponent {
    let private = c.spec.private.take().map(unjoined);
    let mut spec = component(c.spec);
    spec.private = private;
    PlannedComponent {
        spec,
        source: source(c.source),
        pbp_source: c.pbp_source.map(source),
        partition: found.map(partition),
    }
}

fn source(s: theirs::Source) -> Source {
    match s {
        theirs::Source::Package {
            package,
            bin,
            features,
        } => Source::Package {
            package,
            bin,
            features,
        },
        theirs::Source::File(path) => Source::File(unjoined(path)),
    }
}

fn build(b: theirs::BuildRequirement) -> BuildRequirement {
    BuildRequirement {
        package: b.package,
        bin: b.bin,
        features: b.features,
    }
}

// Presets stand in `.`, which is joined to every path that does not begin at the root.
fn unjoined(path: PathBuf) -> PathBuf {
    let joined = written(&path);
    match joined.strip_prefix("./") {
        Some(own) => own.into(),
        None if joined.starts_with('/') => path,
        None => panic!("{joined} is not joined"),
    }
}
