//! The files of toml-test: each is answered as TOML 1.0.0 asks, or docs/TOML-TEST.md names it with what is answered.
use differ::document::compare::Judge;
use differ::suite::json::{self, Json};
use differ::suite::{File, files, tagged};
use port::document::{self, Table};
use port::value::{STORE_MIN, TREE_MIN};
use replay::harness::differences::refusal;
use replay::harness::suite::{ACCEPTED, Folder, LATER, OTHERWISE, folders, named, valid};
use std::collections::BTreeMap;

// Of the package that the documents speak of.
const FILES: [(&str, usize); 2] = [("invalid", 234), ("valid", 100)];

fn all() -> Vec<File> {
    FILES.iter().flat_map(|(folder, _)| files(folder)).collect()
}

fn read(text: &[u8]) -> Result<Table, String> {
    let (mut store, mut tree) = (vec![0xAA; STORE_MIN], vec![0xAA; TREE_MIN]);
    let got = document::read(text, &mut store, &mut tree);
    if got.number != 0 {
        return Err(refusal(got));
    }
    Ok(document::rebuild(&tree, &store, got.made as usize).expect("a tree"))
}

// What is answered, where TOML 1.0.0 asks for something else.
fn departure(file: &File) -> Option<String> {
    match (valid(&file.name), read(&file.text)) {
        (true, Ok(tree)) => {
            let want = file.tree().expect("the suite's tree");
            (tagged(&tree) != want).then(|| OTHERWISE.into())
        }
        (true, Err(refused)) => Some(refused),
        (false, Ok(_)) => Some(ACCEPTED.into()),
        (false, Err(_)) => None,
    }
}

fn departures() -> BTreeMap<String, String> {
    let each = all().into_iter();
    each.filter_map(|f| departure(&f).map(|answer| (f.name, answer)))
        .collect()
}

#[test]
fn the_suite_is_the_one_that_is_known() {
    for (folder, count) in FILES {
        let found = files(folder).len();
        assert_eq!(
            found, count,
            "toml-test has {found} files in {folder}/ and had {count}: the package is another one, and \
             docs/TOML-TEST.md is to be gone through"
        );
    }
    assert!(all().iter().any(|f| f.name == LATER), "{LATER} is missing");
}

#[test]
fn every_departing_file_is_named() {
    let named: BTreeMap<_, _> = named().iter().map(|n| (n.file.into(), n.here)).collect();
    let found = departures();
    let unnamed = found.iter().filter(|(file, _)| !named.contains_key(*file));
    let unnamed = unnamed.map(|(file, answer)| format!("{file}: {answer}, and is not named"));
    let changed = named.iter().filter_map(|(file, here): (&String, _)| {
        let answer = found.get(file).map_or("as TOML says", String::as_str);
        (answer != *here).then(|| format!("{file}: {answer}, not {here}"))
    });
    let wrong: Vec<_> = unnamed.chain(changed).collect();
    assert!(wrong.is_empty(), "docs/TOML-TEST.md:\n{}", wrong.join("\n"));
}

#[test]
fn files_are_counted() {
    let departing = departures();
    let folder = |(name, _): &(&str, usize)| {
        let own = files(name);
        let departing = own.iter().filter(|f| departing.contains_key(&f.name));
        let (all, departing) = (own.len(), departing.count());
        Folder {
            name: name.to_string(),
            counts: [all, all - departing, departing],
        }
    };
    let found: Vec<_> = FILES.iter().map(folder).collect();
    assert_eq!(folders(), found);
}

// Whatever TOML says of them, the port reads them as the definitions and the original do.
#[test]
fn all_sides_read_them_alike() {
    let mut judge = Judge::default();
    for file in all() {
        judge.check(&file.text);
    }
    judge.met.print("toml-test");
}

#[test]
fn json_is_read() {
    let text = |s: &str| Json::Text(s.into());
    let object = Json::Object([("k".into(), text("")), ("é".into(), Json::List(vec![]))].into());
    let known = [
        (r#" "\"\\\/\b\f\n\r\t" "#, text("\"\\/\u{8}\u{c}\n\r\t")),
        (r#""\u00e9\ud83d\ude00é""#, text("é😀é")),
        (
            "[\"a\" ,\n[ ]]",
            Json::List(vec![text("a"), Json::List(vec![])]),
        ),
        ("{\"é\": [], \"k\": \"\"}", object),
    ];
    for (written, want) in known {
        assert_eq!(json::read(written), Ok(want), "{written}");
    }
    let wrong = [
        "",
        "1",
        "true",
        "\"",
        "\"\\",
        "\"\\x\"",
        "\"\\u12\"",
        "\"\\ud800\"",
        "\"\\ud800\\u0041\"",
        "[",
        "[,]",
        "[\"a\",]",
        "[\"a\" \"b\"]",
        "{\"a\"}",
        "{\"a\":\"\",}",
        "{\"a\":\"\",\"a\":\"\"}",
        "{} {}",
    ];
    for written in wrong {
        assert!(json::read(written).is_err(), "{written}");
    }
}
