//! Names that are easily taken for one another: among their own kind, or as a component's and an application's, they
//! differ only in case or in white space at their ends, or have such space.
use super::Sort;
use super::planned::{Entries, Pair};
use crate::refusal::Section;
use crate::schema::Preset;
use crate::shown::quoted;
use crate::tree::Tree;

/// A name, where it stands, and what it is to its entry.
struct Name {
    text: String,
    at: usize,
    entry: String,
    what: &'static str,
    /// Whether messages call the entry by it.
    called: bool,
}

pub(crate) fn found(preset: &Preset, tree: &Tree) -> Vec<Pair> {
    let entries = Entries::of(tree);
    let name = |section, what: &'static str, place: usize, text: &str| {
        let keys: &[&str] = if what == "name" { &["name"] } else { &[] };
        let entry = entries.entry(section, place)?;
        Some(Name {
            text: text.into(),
            at: entries.value(section, place, keys)?,
            entry: entries.called(section, place),
            what,
            called: tree.called(section, entry).as_deref() == Some(text),
        })
    };
    let partitions = preset.partitions.iter().enumerate();
    let components = preset.components.iter().enumerate();
    let apps = || preset.apps.values().enumerate();
    let partitions = partitions.filter_map(|(n, p)| name(Section::Partition, "name", n, &p.name));
    let components = components.filter_map(|(n, c)| name(Section::Component, "name", n, &c.name));
    let keys = apps().filter_map(|(n, a)| name(Section::Application, "key", n, &a.package));
    let names = apps().filter_map(|(n, a)| name(Section::Application, "name", n, &a.name));
    let (components, names): (Vec<Name>, Vec<Name>) = (components.collect(), names.collect());
    let mut out = odd(partitions.collect(), false);
    out.extend(across(&components, &names));
    out.extend(odd(components, false));
    out.extend(odd(keys.collect(), false));
    out.extend(odd(names, true));
    out.extend(booted(preset, tree, &entries));
    out
}

// Among names of one kind. Where keys were looked at before, names that are keys are told.
fn odd(mut names: Vec<Name>, keyed: bool) -> Vec<Pair> {
    names.sort_by_key(|name| name.at);
    let each = names.iter().enumerate().filter_map(|(n, own)| {
        let mut earlier = names[..n].iter();
        let alike = earlier.find_map(|other| Some((other, differs(&own.text, &other.text)?)));
        let known = alike.is_none_or(|(other, _)| other.called);
        if keyed && own.called && known {
            return None;
        }
        match alike {
            Some((other, how)) => Some(own.beside(other, how)),
            None if own.text.trim() != own.text => {
                Some(own.noted("has white space at its ends".into(), None))
            }
            None => None,
        }
    });
    each.collect()
}

// Applications and components share their names in an image (81).
fn across(components: &[Name], apps: &[Name]) -> Vec<Pair> {
    let each = apps.iter().filter_map(|app| {
        let mut all = components.iter();
        let (other, how) = all.find_map(|c| Some((c, differs(&app.text, &c.text)?)))?;
        let (later, earlier) = if app.at > other.at {
            (app, other)
        } else {
            (other, app)
        };
        Some(later.beside(earlier, how))
    });
    each.collect()
}

impl Name {
    fn noted(&self, said: String, other: Option<usize>) -> Pair {
        let (entry, what) = (&self.entry, self.what);
        let text = if self.called {
            String::new()
        } else {
            format!(" {}", quoted(&self.text))
        };
        Pair {
            sort: Sort::Name,
            at: self.at,
            said: format!("{entry}: its {what}{text} {said}"),
            other,
        }
    }

    fn beside(&self, other: &Name, how: &str) -> Pair {
        let said = format!("differs only in {how} from {}", other.said());
        self.noted(said, Some(other.at))
    }

    fn said(&self) -> String {
        let (what, entry) = (self.what, &self.entry);
        if self.called {
            format!("the {what} of {entry}")
        } else {
            format!("{}, the {what} of {entry}", quoted(&self.text))
        }
    }
}

// In what two other names differ, where they are easily taken for one another.
fn differs(a: &str, b: &str) -> Option<&'static str> {
    let low = |text: &str| text.trim().to_lowercase();
    if a == b || low(a) != low(b) {
        None
    } else if a.trim() == b.trim() {
        Some("white space at its ends")
    } else if a.to_lowercase() == b.to_lowercase() {
        Some("case")
    } else {
        Some("case and white space at its ends")
    }
}

// The image's `app` names an application, or so a component, and no rule looks for it; without applications none can be
// meant.
fn booted(preset: &Preset, tree: &Tree, entries: &Entries) -> Option<Pair> {
    let own = &preset.image.boot_app;
    let apps = || preset.apps.values().enumerate();
    let component = preset.components.iter().any(|c| c.name == *own);
    if own.is_empty() || preset.apps.is_empty() || component || apps().any(|(_, a)| a.name == *own)
    {
        return None;
    }
    let called = |n| entries.called(Section::Application, n);
    let alike = apps().find_map(|(n, app)| Some((n, app, differs(own, &app.name)?)));
    let key = apps().find(|(_, app)| app.package == *own);
    let (said, place) = match (alike, key) {
        (Some((n, app, how)), _) => {
            let (name, entry) = (quoted(&app.name), called(n));
            let said = format!("differs only in {how} from {name}, the name of {entry}");
            (said, Some(n))
        }
        (None, Some((n, app))) => {
            let (name, entry) = (quoted(&app.name), called(n));
            let said = format!("is the key of {entry}, and not its name {name}");
            (said, Some(n))
        }
        (None, None) => ("is the name of no application".into(), None),
    };
    let text = quoted(own);
    Some(Pair {
        sort: Sort::Reference,
        at: tree.field(tree.whole(Section::Image)?, "app")?,
        said: format!("image: its app {text} {said}"),
        other: place.and_then(|n| entries.value(Section::Application, n, &["name"])),
    })
}
