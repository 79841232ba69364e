//! What a refusal means, a section or one of its entries, and how an entry is called.
use crate::refusal::{Refusal, Section};
use crate::shown;
use crate::tree::{Kind, Tree};

/// Whether a refusal means all of its section: it says so by its number, or the section is not what it has to be.
pub(crate) fn of_whole(tree: &Tree, refusal: &Refusal) -> bool {
    let Some(whole) = tree.whole(refusal.section) else {
        return true;
    };
    let needed = match refusal.section {
        Section::Partition | Section::Component => Kind::Array,
        _ => Kind::Table,
    };
    refusal.of_whole_list() || tree.kind(whole) != needed
}

/// An entry by its section, number and name.
pub(crate) fn called(tree: &Tree, section: Section, place: usize) -> String {
    named(tree, section, place, tree.entry(section, place))
}

/// The same where the entry's value is at hand.
pub(crate) fn named(tree: &Tree, section: Section, place: usize, entry: Option<usize>) -> String {
    let name = entry.and_then(|entry| tree.called(section, entry));
    let name = name.map_or(String::new(), |name| format!(" {}", shown::quoted(&name)));
    format!("{} {place}{name}", section.name())
}
