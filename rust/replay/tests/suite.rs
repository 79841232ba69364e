//! docs/TOML-TEST.md beside docs/DIFFERENCES.md; that its files are answered so is asked where toml-test is at hand
//! (rust/live).
use replay::harness::suite::{folders, named};
use std::collections::BTreeSet;

#[test]
fn every_file_has_its_row() {
    let wrong = named().into_iter().filter_map(|n| {
        let fault = n.fault()?;
        Some(format!("line {}: {}: {fault}", n.line, n.file))
    });
    let wrong: Vec<_> = wrong.collect();
    assert!(wrong.is_empty(), "\n{}", wrong.join("\n"));
}

#[test]
fn no_file_is_named_twice() {
    let named = named();
    let files: BTreeSet<_> = named.iter().map(|n| n.file).collect();
    assert_eq!(files.len(), named.len());
}

#[test]
fn files_are_counted() {
    let named = named();
    let folders = folders();
    assert_eq!(folders.len(), 2);
    for folder in folders {
        let own = named
            .iter()
            .filter(|n| n.file.split('/').next() == Some(&folder.name));
        let [all, same, departing] = folder.counts;
        assert_eq!(departing, own.count(), "{}", folder.name);
        assert_eq!(all, same + departing, "{}", folder.name);
    }
}
