//! One package with two feature sets (60): which uses of it they are.
use crate::entry::called;
use crate::refusal::{Refusal, Section};
use crate::schema::{ComponentSpec, Preset};
use crate::shown::{plain, quoted};
use crate::tree::Tree;

/// A use of a package: where it is, the key that tells it there, and the features that count.
#[derive(Clone, Copy)]
struct Use<'a> {
    section: Section,
    place: usize,
    key: &'static str,
    package: &'a str,
    features: &'a [String],
}

/// Two uses of one package with other features, the later one first.
pub(crate) struct Clash<'a>(Use<'a>, Use<'a>);

impl Clash<'_> {
    pub fn said(&self, tree: &Tree) -> String {
        let Clash(later, earlier) = self;
        let place = called(tree, earlier.section, earlier.place);
        let (own, other) = (list(later.features), list(earlier.features));
        format!("{}: {own} here, {other} in {place}", quoted(later.package))
    }
}

/// A feature set in a message.
pub(crate) fn list(features: &[String]) -> String {
    if features.is_empty() {
        "none".into()
    } else {
        plain(&features.join(", "))
    }
}

/// The clash at the entry that a refusal 60 names.
pub(crate) fn of<'a>(preset: &'a Preset, refusal: &Refusal) -> Option<Clash<'a>> {
    let uses = uses(preset);
    let of_entry = |u: &Use| u.section == refusal.section && u.place == refusal.place as usize;
    let clash = |at: usize| {
        let own = uses[at];
        let mut earlier = uses[..at].iter().filter(|u| u.package == own.package);
        let other = earlier.find(|u| u.features != own.features)?;
        of_entry(&own).then_some(Clash(own, *other))
    };
    (0..uses.len()).find_map(clash)
}

/// The key of the field that it stands at.
pub(crate) fn key(text: &[u8], refusal: &Refusal) -> Option<&'static str> {
    let preset = Preset::read(text, b"").ok()?;
    of(&preset, refusal).map(|Clash(later, _)| later.key)
}

fn uses(preset: &Preset) -> Vec<Use<'_>> {
    let components = preset.components.iter().enumerate();
    let mut out: Vec<Use> = components.flat_map(|(i, c)| packages(i, c)).collect();
    out.extend(preset.apps.values().enumerate().map(|(place, app)| Use {
        section: Section::Application,
        place,
        key: "features",
        package: &app.package,
        features: &app.features,
    }));
    out
}

// Where both packages of a component are the same, only the PBP's features count.
fn packages(place: usize, c: &ComponentSpec) -> Vec<Use<'_>> {
    let named = [("package", &c.package), ("pbp_package", &c.pbp_package)];
    let each = named.into_iter().filter_map(|(key, package)| {
        let package = package.as_deref()?;
        let pbp = c.pbp_package.as_deref() == Some(package);
        Some(Use {
            section: Section::Component,
            place,
            key,
            package,
            features: if pbp { &c.pbp_features } else { &c.features },
        })
    });
    each.collect()
}
