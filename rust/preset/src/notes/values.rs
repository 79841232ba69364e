//! Values of a tree in messages.
use crate::lines::Lines;
use crate::shown::{plain, quoted};
use crate::tree::{Kind, Tree};
use crate::written::number;

/// Whether a value is an array of tables alone, as headers make them.
pub(crate) fn lists(tree: &Tree, value: usize) -> bool {
    let items = tree.items(value);
    !items.is_empty() && items.into_iter().all(|item| tree.kind(item) == Kind::Table)
}

/// Whether two values are equal; two tables never are.
pub(crate) fn same(tree: &Tree, a: usize, b: usize) -> bool {
    let [own, other] = [a, b].map(|value| tree.items(value));
    let items = || own.iter().zip(&other).all(|(a, b)| same(tree, *a, *b));
    match (tree.kind(a), tree.kind(b)) {
        (Kind::Array, Kind::Array) => own.len() == other.len() && items(),
        (Kind::Text, Kind::Text) => tree.text(a) == tree.text(b),
        (Kind::Integer, Kind::Integer) => tree.integer(a) == tree.integer(b),
        (Kind::Boolean, Kind::Boolean) => tree.boolean(a) == tree.boolean(b),
        _ => false,
    }
}

/// A value in short; a number as its line has it.
pub(crate) fn said(tree: &Tree, lines: &Lines, value: usize) -> String {
    match tree.integer(value) {
        Some(own) => number(lines.value_of(value), own),
        None => short(tree, value),
    }
}

fn short(tree: &Tree, value: usize) -> String {
    match tree.kind(value) {
        Kind::Text => quoted(&tree.text(value).unwrap_or_default()),
        Kind::Integer => tree.integer(value).map_or(String::new(), |n| n.to_string()),
        Kind::Boolean => tree.boolean(value).unwrap_or_default().to_string(),
        Kind::Table => Kind::Table.name().into(),
        Kind::Array => array(tree, tree.items(value)),
    }
}

fn array(tree: &Tree, items: Vec<usize>) -> String {
    let tables = |item: &usize| tree.kind(*item) == Kind::Table;
    match items.len() {
        1 if items.iter().all(tables) => "an array of 1 table".into(),
        many @ 2.. if items.iter().all(tables) => format!("an array of {many} tables"),
        _ => {
            let items: Vec<String> = items.into_iter().map(|item| short(tree, item)).collect();
            plain(&format!("[{}]", items.join(", ")))
        }
    }
}
