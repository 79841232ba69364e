//! The documents name definitions, theorems and functions: each of them exists.
use std::fs;
use std::path::{Path, PathBuf};

fn root() -> PathBuf {
    Path::new(env!("CARGO_MANIFEST_DIR")).join("../..")
}

/// What stands between single backticks in a document, without its blocks of code.
fn quoted(paper: &str) -> Vec<String> {
    let mut out = Vec::new();
    let mut code = false;
    let mut text = String::new();
    for line in paper.lines() {
        if line.starts_with("```") {
            code = !code;
        } else if !code {
            text.push_str(line.trim_end());
            text.push('\n');
        }
    }
    for (i, piece) in text.split('`').enumerate() {
        if i % 2 == 1 {
            out.push(piece.to_owned());
        }
    }
    out
}

fn is_file_name(s: &str) -> bool {
    s.starts_with(|c: char| c.is_ascii_uppercase()) && s.chars().all(|c| c.is_ascii_alphanumeric())
}

fn is_crate_name(s: &str) -> bool {
    !s.is_empty() && s.chars().all(|c| c.is_ascii_lowercase() || c == '_')
}

/// The files of definitions and laws with this name, of one crate or of all.
fn files(owner: Option<&str>, folders: &[&str], file: &str) -> Vec<PathBuf> {
    let crates = fs::read_dir(root().join("crates")).expect("crates");
    let mut out = Vec::new();
    for entry in crates {
        let path = entry.expect("a crate").path();
        if owner.is_none_or(|o| path.ends_with(o)) {
            out.extend(
                folders
                    .iter()
                    .map(|f| path.join(f).join(format!("{file}.antt"))),
            );
        }
    }
    out.retain(|f| f.exists());
    out
}

/// `crate/specs/File.name`, `crate/File.name`, `specs/File.name` or `File.name`: the files meant, and the name. A file
/// alone stands for one of `home`.
fn meant(word: &str, home: Option<&str>) -> Option<(Vec<PathBuf>, Option<String>)> {
    let (path, name) = match word.split_once('.') {
        Some((path, name)) => (path, Some(name.to_owned())),
        None => (word, None),
    };
    let both = ["specs", "proofs"];
    let parts: Vec<&str> = path
        .strip_prefix("crates/")
        .unwrap_or(path)
        .split('/')
        .collect();
    let (owner, folders, file) = match parts[..] {
        [file] if name.is_some() => (home, &both[..], file),
        ["specs", file] => (None, &both[..1], file),
        ["proofs", file] => (None, &both[1..], file),
        [owner, file] => (Some(owner), &both[..], file),
        [owner, "specs", file] => (Some(owner), &both[..1], file),
        [owner, "proofs", file] => (Some(owner), &both[1..], file),
        _ => return None,
    };
    let other = name
        .as_deref()
        .is_some_and(|n| ["antt", "md", "rs", "toml"].contains(&n));
    if other || !owner.is_none_or(is_crate_name) || !is_file_name(file) {
        return None;
    }
    Some((files(owner, folders, file), name))
}

/// Whether a file defines the name: as a definition, a type, or a field or case of one.
fn defines(file: &Path, name: &str) -> bool {
    let text = fs::read_to_string(file).expect("a file of definitions");
    text.lines().any(|line| {
        let heads = ["abbrev ", "unfoldable ", "pub ", "data ", "record "];
        let mut rest = line.trim_start();
        while let Some(tail) = heads.iter().find_map(|h| rest.strip_prefix(h)) {
            rest = tail;
        }
        let before = rest.split(" :").next().unwrap_or("");
        before
            .split_whitespace()
            .take_while(|w| !w.starts_with(['(', '{', '=']))
            .any(|w| w == name)
    })
}

/// README.md and all documents.
fn papers() -> Vec<PathBuf> {
    let docs = fs::read_dir(root().join("docs")).expect("docs");
    let mut out = vec![root().join("README.md")];
    out.extend(docs.map(|entry| entry.expect("an entry").path()));
    out.retain(|p| p.extension().is_some_and(|e| e == "md"));
    out
}

#[test]
fn names_in_documents_exist() {
    let mut asked = 0;
    let mut missing = Vec::new();
    for paper in papers() {
        let text = fs::read_to_string(&paper).expect("a document");
        // the format is what the definitions say
        let home = paper.ends_with("FORMAT.md").then_some("meaning");
        for word in quoted(&text) {
            let Some((files, name)) = meant(&word, home) else {
                continue;
            };
            asked += 1;
            if !files
                .iter()
                .any(|f| name.as_ref().is_none_or(|n| defines(f, n)))
            {
                missing.push(format!("{}: {word}", paper.display()));
            }
        }
    }
    assert!(asked > 200, "only {asked} names were found");
    assert!(
        missing.is_empty(),
        "no such definitions:\n{}",
        missing.join("\n")
    );
}

/// The sources of a crate in Rattle, and of the one in Rust that has its name.
fn sources(owner: &str) -> String {
    let mut out = String::new();
    for folder in [format!("crates/{owner}/src"), format!("rust/{owner}/src")] {
        let Ok(entries) = fs::read_dir(root().join(folder)) else {
            continue;
        };
        for entry in entries {
            out.push_str(&fs::read_to_string(entry.expect("an entry").path()).unwrap_or_default());
        }
    }
    out
}

/// `crate::module::name`: the crate, and the name that it is to declare.
fn called(word: &str) -> Option<(&str, &str)> {
    let (owner, rest) = word.split_once("::")?;
    let name = rest.rsplit("::").next()?;
    let known = is_crate_name(owner) && root().join("crates").join(owner).is_dir();
    let plain = name.chars().all(|c| c.is_ascii_alphanumeric() || c == '_');
    (known && plain).then_some((owner, name))
}

fn declares(owner: &str, name: &str) -> bool {
    let text = sources(owner);
    let words = text
        .split(|c: char| !c.is_ascii_alphanumeric() && c != '_')
        .filter(|w| !w.is_empty());
    let words: Vec<&str> = words.collect();
    let heads = ["fn", "struct", "enum", "mod", "const"];
    words
        .windows(2)
        .any(|pair| heads.contains(&pair[0]) && pair[1] == name)
}

#[test]
fn functions_in_documents_exist() {
    let mut asked = 0;
    let mut missing = Vec::new();
    for paper in papers() {
        let text = fs::read_to_string(&paper).expect("a document");
        for word in quoted(&text) {
            let Some((owner, name)) = called(&word) else {
                continue;
            };
            // for hosts, modules are those of `port`
            let owner = if paper.ends_with("HOST.md") {
                "port"
            } else {
                owner
            };
            asked += 1;
            if !declares(owner, name) {
                missing.push(format!("{}: {word}", paper.display()));
            }
        }
    }
    assert!(asked > 50, "only {asked} functions were found");
    assert!(
        missing.is_empty(),
        "no such functions:\n{}",
        missing.join("\n")
    );
}

/// The names of the parameters of each function of a crate that is called so.
fn parameters(owner: &str, name: &str) -> Vec<Vec<String>> {
    let text = sources(owner);
    let head = format!("fn {name}");
    let mut out = Vec::new();
    for (i, _) in text.match_indices(&head) {
        let rest = &text[i + head.len()..];
        let Some(open) = rest.find('(') else { continue };
        if !rest[..open].is_empty() && !rest.starts_with('<') {
            continue;
        }
        let close = open + rest[open..].find(')').expect("the end of the parameters");
        let all = rest[open + 1..close].split(',').map(str::trim);
        let named = all
            .filter(|p| !p.is_empty())
            .map(|p| p.split(':').next().unwrap_or(p));
        out.push(
            named
                .map(|p| p.trim_start_matches("mut ").to_owned())
                .collect(),
        );
    }
    out
}

/// `module::name(a, b)`: the name and the parameters; nothing where some are left out.
fn signature(word: &str) -> Option<(&str, Vec<String>)> {
    let (path, rest) = word.split_once('(')?;
    let inside = rest.strip_suffix(')')?;
    let plain = |s: &str| {
        s.chars()
            .all(|c| c.is_ascii_alphanumeric() || c == '_' || c == ':')
    };
    if !plain(path) || inside.contains("..") {
        return None;
    }
    let names = inside
        .split(',')
        .map(|p| p.trim().to_owned())
        .filter(|p| !p.is_empty());
    Some((path.rsplit("::").next()?, names.collect()))
}

#[test]
fn promises_are_of_functions_as_they_are() {
    let text = fs::read_to_string(root().join("docs/PROMISES.md")).expect("the promises");
    let mut asked = 0;
    let mut wrong = Vec::new();
    for section in text.split("\n## ").skip(1) {
        let owner = section
            .split(|c: char| !c.is_ascii_lowercase() && c != '_')
            .next();
        let owner = owner.expect("a crate's name");
        for word in quoted(section) {
            let Some((name, names)) = signature(&word) else {
                continue;
            };
            asked += 1;
            if !parameters(owner, name).contains(&names) {
                wrong.push(format!("{owner}: {word}"));
            }
        }
    }
    assert!(asked > 60, "only {asked} functions were found");
    assert!(wrong.is_empty(), "no such functions:\n{}", wrong.join("\n"));
}
