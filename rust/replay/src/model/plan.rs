//! Planning of records by 01's rules.
use super::answer::records::{Preset, Read, Refusal};
use super::records::{APPLICATION, bare, file_name, written};
use super::validate::{self, reference};
use preset::{
    AppSpec, BuildRequirement, ComponentKind, ComponentSpec, ImagePlan, PlannedComponent, Source,
};

/// Every number that planning refuses with.
pub const NUMBERS: [u32; 2] = [80, 81];

/// The key of the application that goes with the boot chain, where one is selected.
pub type Selected<'a> = Option<&'a [u8]>;

/// First the records and the rules, then the selection.
pub fn read(text: &[u8], name: &[u8], selected: Selected) -> Read {
    let answer = validate::read(text, name)?;
    chosen(&answer.preset, selected)?;
    Ok(answer)
}

/// The plan of a preset that breaks no rule.
pub fn plan(p: &Preset, selected: Selected) -> Result<ImagePlan, Refusal> {
    let app = chosen(p, selected)?.map(component_of);
    let in_use = p.components.iter().chain(&app);
    let required_builds = first_uses(in_use.flat_map(uses));
    let mut components = p.components.clone();
    if let Some(app) = app {
        components.insert(ahead(p), app);
    }
    Ok(ImagePlan {
        board: p.board.clone(),
        image: p.image.clone(),
        partitions: p.partitions.clone(),
        components: components.into_iter().map(|c| planned(p, c)).collect(),
        required_builds,
        stem: stem(p, selected),
    })
}

// 80 is told of no entry, 81 of the application's.
pub(crate) fn chosen<'a>(
    p: &'a Preset,
    selected: Selected,
) -> Result<Option<&'a AppSpec>, Refusal> {
    let refused = |number, place| Refusal {
        number,
        section: APPLICATION,
        place,
    };
    let Some(key) = selected else {
        return Ok(None);
    };
    let mut apps = p.apps.values().enumerate();
    let chosen = apps.find(|(_, a)| a.package.as_bytes() == key);
    let (place, app) = chosen.ok_or(refused(80, 0))?;
    if p.components.iter().any(|c| c.name == app.name) {
        Err(refused(81, place))
    } else {
        Ok(Some(app))
    }
}

// What an application does not say is as in a component that does not say it.
fn component_of(a: &AppSpec) -> ComponentSpec {
    ComponentSpec {
        kind: ComponentKind::App,
        package: Some(a.package.clone()),
        filename: a.filename.clone(),
        features: a.features.clone(),
        partition: a.partition.clone(),
        attr: a.attr.clone(),
        load_address: a.load_address,
        entry_offset: a.entry_offset,
        ..bare(&a.name)
    }
}

// How many components stand before the first with a partition.
fn ahead(p: &Preset) -> usize {
    let placed = |c: &ComponentSpec| !c.partition.is_empty();
    p.components.iter().take_while(|c| !placed(c)).count()
}

fn built(package: &str, bin: Option<&str>, features: &[String]) -> BuildRequirement {
    BuildRequirement {
        package: package.into(),
        bin: bin.unwrap_or(package).into(),
        features: features.to_vec(),
    }
}

// A component's own package and its PBP's, with the features of this use.
fn packages(c: &ComponentSpec) -> [Option<BuildRequirement>; 2] {
    let own = c.package.as_deref();
    let pbp = c.pbp_package.as_deref();
    [
        own.map(|package| built(package, c.bin.as_deref(), &c.features)),
        pbp.map(|package| built(package, None, &c.pbp_features)),
    ]
}

fn uses(c: &ComponentSpec) -> impl Iterator<Item = BuildRequirement> {
    packages(c).into_iter().flatten()
}

// One for each package, as its first use has it.
fn first_uses(all: impl Iterator<Item = BuildRequirement>) -> Vec<BuildRequirement> {
    let mut out: Vec<BuildRequirement> = Vec::new();
    for one in all {
        if out.iter().all(|earlier| earlier.package != one.package) {
            out.push(one);
        }
    }
    out
}

fn source_of(build: BuildRequirement) -> Source {
    let BuildRequirement {
        package,
        bin,
        features,
    } = build;
    Source::Package {
        package,
        bin,
        features,
    }
}

// Files move from the record to the sources; only a file beside a package, which 53 refuses, stays.
fn planned(p: &Preset, mut c: ComponentSpec) -> PlannedComponent {
    let [own, pbp_package] = packages(&c).map(|build| build.map(source_of));
    let source = own.unwrap_or_else(|| Source::File(c.file.take().expect("54")));
    let pbp = c.pbp.take().map(Source::File);
    let name = reference(&c.partition);
    let partition = p.partitions.iter().find(|part| part.name == name).cloned();
    PlannedComponent {
        spec: c,
        source,
        pbp_source: pbp.or(pbp_package),
        partition,
    }
}

fn stem(p: &Preset, selected: Selected) -> String {
    let leads = |c: &&ComponentSpec| c.kind == ComponentKind::App && !c.partition.is_empty();
    let own = match selected {
        Some(key) => Some(str::from_utf8(key).expect("a declared key")),
        None => p.components.iter().find(leads).and_then(own_stem),
    };
    own.unwrap_or(&p.board.name).into()
}

fn own_stem(c: &ComponentSpec) -> Option<&str> {
    let file = c.file.as_deref().map(written);
    let named = c.package.as_deref().or(c.bin.as_deref());
    named.or_else(|| file_stem(file?))
}

/// A file's name up to its last dot, unless that dot is first.
pub fn file_stem(path: &str) -> Option<&str> {
    let name = file_name(path)?;
    match name.rfind('.') {
        None | Some(0) => Some(name),
        Some(dot) => Some(&name[..dot]),
    }
}
