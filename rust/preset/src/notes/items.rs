//! Items of a feature list that look like several: only a string is parted at blanks and commas, a list is not.
use super::Sort;
use super::planned::{Entries, Pair};
use crate::refusal::Section;
use crate::shown::{plain, quoted};
use crate::tree::Tree;

const LISTS: [&str; 2] = ["features", "pbp_features"];

pub(crate) fn found(tree: &Tree) -> Vec<Pair> {
    let entries = Entries::of(tree);
    let tables = [Section::Component, Section::Application].into_iter();
    let tables = tables.flat_map(|section| {
        let own = tree.tables(section).into_iter().enumerate();
        own.map(move |(place, table)| (section, place, table))
    });
    let lists = tables.flat_map(|(section, place, table)| {
        let own = LISTS
            .into_iter()
            .filter_map(move |key| Some((key, tree.field(table, key)?)));
        own.map(move |(key, list)| (section, place, key, list))
    });
    let each = lists.filter_map(|(section, place, key, list)| {
        let mut items = tree
            .items(list)
            .into_iter()
            .filter_map(|item| tree.text(item));
        let item = items.find(|item| parts(item).len() > 1)?;
        let entry = entries.called(section, place);
        let (own, meant) = (quoted(&item), plain(&parts(&item).join(", ")));
        Some(Pair {
            sort: Sort::Item,
            at: list,
            said: format!(
                "{entry}: an item of `{key}` is {own}, which is one feature: is {meant} meant?"
            ),
            other: None,
        })
    });
    each.collect()
}

// What a string would be parted into.
fn parts(item: &str) -> Vec<String> {
    let words = item.split([' ', ',']).filter(|word| !word.is_empty());
    words.map(quoted).collect()
}
