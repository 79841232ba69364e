//! What planning makes of an accepted preset that its writer may not expect: the library is asked for the plan of the
//! boot chain and of every application.
use super::Sort;
use crate::clash::list;
use crate::entry::named;
use crate::lines::Lines;
use crate::refusal::Section;
use crate::schema::{
    AppSpec, ImagePlan, PartitionSpec, PlannedComponent, Preset, Selection, Source,
};
use crate::shown::quoted;
use crate::tree::Tree;

/// Two places of a text that do not go together.
pub(crate) struct Pair {
    pub sort: Sort,
    /// The value that it is told at.
    pub at: usize,
    pub said: String,
    /// The value of the other place.
    pub other: Option<usize>,
}

impl Pair {
    /// Its line, and what is said there.
    pub fn told(&self, lines: &Lines) -> (Option<usize>, String) {
        let other = self.other.and_then(|value| lines.making(value));
        let other = other.map_or(String::new(), |line| format!(" (line {line})"));
        (lines.making(self.at), format!("{}{other}", self.said))
    }
}

/// Where the entries of an accepted preset stand.
pub(crate) struct Entries<'a> {
    tree: &'a Tree,
    partitions: Vec<usize>,
    components: Vec<usize>,
    apps: Vec<usize>,
}

impl<'a> Entries<'a> {
    pub fn of(tree: &'a Tree) -> Entries<'a> {
        Entries {
            tree,
            partitions: tree.list(Section::Partition),
            components: tree.list(Section::Component),
            apps: tree.list(Section::Application),
        }
    }

    pub fn entry(&self, section: Section, place: usize) -> Option<usize> {
        let list = match section {
            Section::Partition => &self.partitions,
            Section::Component => &self.components,
            _ => &self.apps,
        };
        list.get(place).copied()
    }

    /// The value of an entry's first key that is there, else the entry.
    pub fn value(&self, section: Section, place: usize, keys: &[&str]) -> Option<usize> {
        let entry = self.entry(section, place)?;
        let mut fields = keys.iter().filter_map(|key| self.tree.field(entry, key));
        Some(fields.next().unwrap_or(entry))
    }

    pub fn called(&self, section: Section, place: usize) -> String {
        named(self.tree, section, place, self.entry(section, place))
    }
}

/// All but those about names.
pub(crate) fn found(text: &[u8], name: &[u8], preset: &Preset, tree: &Tree) -> Vec<Pair> {
    let entries = Entries::of(tree);
    let Ok(chain) = Preset::plan(text, name, &Selection::Bootloader) else {
        return Vec::new();
    };
    let uses = chain.components.iter().enumerate();
    let uses: Vec<Use> = uses.flat_map(|(place, own)| Use::of(place, own)).collect();
    let own = uses
        .iter()
        .filter_map(|own| own.built(&chain, &uses, &entries));
    let mut out: Vec<Pair> = own.collect();
    let mut stays = stays(&chain);
    for (place, app) in preset.apps.values().enumerate() {
        let planned = Preset::plan(text, name, &Selection::App(app.package.clone()));
        let Ok(plan) = planned else {
            out.extend(never(preset, app, place, &entries));
            continue;
        };
        let own = plan.components.iter().find(|c| c.spec.name == app.name);
        let Some(own) = own else { continue };
        out.extend(elsewhere(preset, app, own, place, &entries));
        out.extend(Use::of_app(place, own).and_then(|own| own.built(&plan, &uses, &entries)));
        stays.extend(own.partition.as_ref().map(|p| Stay {
            section: Section::Application,
            place,
            partition: p.name.clone(),
        }));
    }
    out.extend(shared(&stays, &entries));
    out
}

// The library refuses every plan of it: its name is a component's (81).
fn never(preset: &Preset, app: &AppSpec, place: usize, entries: &Entries) -> Option<Pair> {
    let component = preset.components.iter().position(|c| c.name == app.name)?;
    let entry = entries.called(Section::Application, place);
    let name = quoted(&app.name);
    Some(Pair {
        sort: Sort::Unplanned,
        at: entries.value(Section::Application, place, &["name"])?,
        said: format!(
            "{entry}: it can never be planned (81): its name {name} is the name of component {component}"
        ),
        other: entries.value(Section::Component, component, &["name"]),
    })
}

// Planning cuts and trims a reference that validation has compared letter for letter.
fn elsewhere(
    preset: &Preset,
    app: &AppSpec,
    own: &PlannedComponent,
    place: usize,
    entries: &Entries,
) -> Option<Pair> {
    let planned = own.partition.as_ref();
    if planned.is_some_and(|partition| partition.name == app.partition) {
        return None;
    }
    let number = |name: &str| preset.partitions.iter().position(|p| p.name == name);
    let meant = number(&app.partition)?;
    let entry = entries.called(Section::Application, place);
    let found = planned.and_then(|partition| Some((number(&partition.name)?, partition.locked)));
    let into = match found {
        Some((other, locked)) => {
            let lock = if locked { ", which is locked" } else { "" };
            format!("into {}{lock}", entries.called(Section::Partition, other))
        }
        None => "into no partition".into(),
    };
    let looked = quoted(PartitionSpec::name_of(&app.partition));
    let meant_called = entries.called(Section::Partition, meant);
    Some(Pair {
        sort: Sort::Reference,
        at: entries.value(Section::Application, place, &["partition"])?,
        said: format!(
            "{entry}: it is planned {into}: its reference is cut at `;` and trimmed, \
             and that leaves {looked}, not {meant_called}"
        ),
        other: entries.value(Section::Partition, meant, &["name"]),
    })
}

/// A use of a package in a plan, and the key of the features that it asks for.
struct Use {
    section: Section,
    place: usize,
    keys: [&'static str; 2],
    package: String,
    features: Vec<String>,
}

impl Use {
    // Of a component its payload, then its PBP: in this order packages are first met.
    fn of(place: usize, own: &PlannedComponent) -> Vec<Use> {
        let sources = [
            (Some(&own.source), ["features", "package"]),
            (own.pbp_source.as_ref(), ["pbp_features", "pbp_package"]),
        ];
        let each = sources.into_iter().filter_map(|(source, keys)| {
            let Some(Source::Package {
                package, features, ..
            }) = source
            else {
                return None;
            };
            Some(Use {
                section: Section::Component,
                place,
                keys,
                package: package.clone(),
                features: features.clone(),
            })
        });
        each.collect()
    }

    fn of_app(place: usize, own: &PlannedComponent) -> Option<Use> {
        let of = Use::of(place, own).into_iter().next()?;
        Some(Use {
            section: Section::Application,
            ..of
        })
    }

    // A package is built once, with the features of its first use.
    fn built(&self, plan: &ImagePlan, uses: &[Use], entries: &Entries) -> Option<Pair> {
        let mut builds = plan.required_builds.iter();
        let build = builds.find(|build| build.package == self.package)?;
        if build.features == self.features {
            return None;
        }
        let first = uses.iter().find(|first| first.package == self.package)?;
        let (own, built) = (list(&self.features), list(&build.features));
        let [entry, other] = [self, first].map(|u| entries.called(u.section, u.place));
        let [key, first_key] = [self, first].map(|u| u.keys[0]);
        let package = quoted(&self.package);
        Some(Pair {
            sort: Sort::Features,
            at: entries.value(self.section, self.place, &self.keys)?,
            said: format!(
                "{entry}: its `{key}` for package {package} are {own}; \
                 it is built with {built}, the `{first_key}` of {other}"
            ),
            other: entries.value(first.section, first.place, &first.keys),
        })
    }
}

/// Who lands in a partition.
struct Stay {
    section: Section,
    place: usize,
    partition: String,
}

fn stays(chain: &ImagePlan) -> Vec<Stay> {
    let each = chain.components.iter().enumerate();
    let each = each.filter_map(|(place, own)| {
        Some(Stay {
            section: Section::Component,
            place,
            partition: own.partition.as_ref()?.name.clone(),
        })
    });
    each.collect()
}

// Applications may share a partition with one another, but not with a component. The later one in the text is told; of
// applications after a component the first, with how many more there are.
fn shared(stays: &[Stay], entries: &Entries) -> Vec<Pair> {
    let at = |stay: &Stay| entries.value(stay.section, stay.place, &["partition"]);
    let mut all: Vec<(usize, &Stay)> = stays.iter().filter_map(|s| Some((at(s)?, s))).collect();
    all.sort_by_key(|(at, stay)| (&stay.partition, *at));
    let each = all.chunk_by(|(_, a), (_, b)| a.partition == b.partition);
    each.flat_map(|same| (0..same.len()).filter_map(|n| sharing(same, n, entries)))
        .collect()
}

fn sharing(same: &[(usize, &Stay)], n: usize, entries: &Entries) -> Option<Pair> {
    let component = |(_, stay): &(usize, &Stay)| stay.section == Section::Component;
    let (own, earlier) = (same[n], &same[..n]);
    let first = earlier.iter().find(|e| component(e) || component(&own))?;
    let mut after = earlier.iter().skip_while(|e| !component(e));
    if !component(&own) && after.any(|e| !component(e)) {
        return None;
    }
    let later = same[n + 1..]
        .iter()
        .filter(|e| !component(&own) && !component(e));
    let who = match later.count() {
        0 => "it shares".into(),
        1 => "it and 1 more application share".into(),
        more => format!("it and {more} more applications share"),
    };
    let [entry, other] = [own.1, first.1].map(|s| entries.called(s.section, s.place));
    let partition = quoted(&own.1.partition);
    Some(Pair {
        sort: Sort::Shared,
        at: own.0,
        said: format!("{entry}: {who} partition {partition} with {other}"),
        other: Some(first.0),
    })
}
