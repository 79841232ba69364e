//! The suite toml-test: its files, and the trees that it has for those of them that are valid.
pub mod json;

use json::Json;
use port::document::{Table, Value};
use std::fs;
use std::path::{Path, PathBuf};

// rust/live/fetch puts it there.
const FOLDER: &str = concat!(
    env!("CARGO_MANIFEST_DIR"),
    "/../vendor/usr/share/gocode/src/github.com/BurntSushi/toml/internal/toml-test/tests"
);

/// A file by its path in the suite without the ending, and its text.
pub struct File {
    pub name: String,
    pub text: Vec<u8>,
}

/// The files of a folder of the suite, and of all folders in it.
pub fn files(folder: &str) -> Vec<File> {
    let mut paths = Vec::new();
    gather(&Path::new(FOLDER).join(folder), &mut paths);
    paths.sort();
    let file = |path: PathBuf| File {
        name: name(&path),
        text: fs::read(&path).expect("a file of toml-test"),
    };
    paths.into_iter().map(file).collect()
}

fn gather(folder: &Path, out: &mut Vec<PathBuf>) {
    let entries = fs::read_dir(folder);
    let missing = |e| panic!("{}: {e}: rust/live/fetch unpacks it", folder.display());
    for entry in entries.unwrap_or_else(missing) {
        let path = entry.expect("an entry").path();
        if path.is_dir() {
            gather(&path, out);
        } else if path.extension().is_some_and(|e| e == "toml") {
            out.push(path);
        }
    }
}

fn name(path: &Path) -> String {
    let inside = path.strip_prefix(FOLDER).expect("a path in the suite");
    inside.with_extension("").to_string_lossy().into()
}

impl File {
    /// The tree that a valid file stands for.
    pub fn tree(&self) -> Result<Json, String> {
        let path = format!("{FOLDER}/{}.json", self.name);
        let text = fs::read_to_string(&path).map_err(|e| format!("{path}: {e}"))?;
        json::read(&text).map_err(|e| format!("{path}: {e}"))
    }
}

/// A tree in the suite's way: a table is an object, an array a list, and all else an object of its type and its
/// value, both of them strings.
pub fn tagged(table: &Table) -> Json {
    Json::Object(table.iter().map(|(k, v)| (text(k), value(v))).collect())
}

fn value(v: &Value) -> Json {
    match v {
        Value::Str(s) => single("string", text(s)),
        Value::Int(i) => single("integer", i.to_string()),
        Value::Bool(b) => single("bool", b.to_string()),
        Value::Array(items) => Json::List(items.iter().map(value).collect()),
        Value::Table(table) => tagged(table),
    }
}

fn single(kind: &str, value: String) -> Json {
    let entries = [("type", kind.to_string()), ("value", value)];
    let entries = entries.map(|(key, text)| (key.to_string(), Json::Text(text)));
    Json::Object(entries.into())
}

// Strings and keys are UTF-8, as the text is.
fn text(bytes: &[u8]) -> String {
    String::from_utf8(bytes.to_vec()).expect("a part of a text")
}
