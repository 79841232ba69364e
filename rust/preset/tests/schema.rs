//! docs/preset.schema.json, for editors: it is made from docs/FORMAT.md, has the crate's fields, and takes whatever 01
//! accepts.
#[path = "schema/check.rs"]
mod check;
#[path = "schema/json.rs"]
mod json;
#[path = "schema/paper.rs"]
mod paper;

use json::Json;
use paper::Field;
use preset::{Preset, explain};
use replay::generators::random::{Rng, turns};
use replay::generators::{large, mixed};
use std::io::Write;
use std::path::{Path, PathBuf};
use std::process::{Command, Stdio};

fn root() -> PathBuf {
    Path::new(env!("CARGO_MANIFEST_DIR")).join("../..")
}

// `PRESET_BLESS=1 cargo test --offline -p preset --test schema` writes it anew.
#[test]
fn the_file_is_made_from_the_format() {
    let (file, made) = (
        root().join("docs/preset.schema.json"),
        paper::schema().written() + "\n",
    );
    if std::env::var_os("PRESET_BLESS").is_some() {
        std::fs::write(&file, &made).expect("docs/ can be written");
    }
    let own = std::fs::read_to_string(&file).expect("the schema");
    assert!(
        own == made,
        "docs/FORMAT.md has changed: make the schema anew with PRESET_BLESS=1"
    );
}

fn passes(text: &[u8]) -> bool {
    let tree = json::tree(text).expect("a tree");
    let schema = paper::schema();
    check::passes(&schema, &schema, &tree)
}

// The presets of the repository, and the mended examples of docs/REFUSALS.md that have records.
fn sound() -> Vec<String> {
    let presets = std::fs::read_dir(root().join("presets")).expect("presets");
    let presets = presets.map(|file| file.expect("a file").path());
    let presets = presets.filter(|path| path.extension().is_some_and(|e| e == "toml"));
    let presets = presets.map(|path| std::fs::read_to_string(path).expect("a text"));
    let mended = explain::entries().into_iter();
    let mended = mended.filter_map(|entry| entry.mended.map(String::from));
    let all = presets.chain(mended);
    all.filter(|text| Preset::read(text.as_bytes(), b"").is_ok())
        .collect()
}

#[test]
fn presets_and_mended_examples_pass() {
    let sound = sound();
    assert!(sound.len() > 50, "{}", sound.len());
    for text in sound {
        assert!(passes(text.as_bytes()), "{text}");
    }
}

// The example with one edit, for each of some.
fn edited(edits: &[(&str, &str)]) -> Vec<String> {
    let example = std::fs::read_to_string(root().join("presets/example.toml")).expect("a text");
    let edit = |(old, new): &(&str, &str)| {
        assert!(example.contains(old), "{old}");
        example.replace(old, new)
    };
    edits.iter().map(edit).collect()
}

// What a schema might take for a fault and 01 does not.
fn odd() -> Vec<String> {
    let (chip, desk) = ("chip = \"d13x\"", "[apps.desk]\npartition = \"profiles\"");
    let image = "[image]\nplatform = \"d13x\"\napp = \"a name that has thirty-two bytes\"\n";
    let long = "[apps.a-key-of-more-than-thirty-two-bytes]\nname = \"x\"\npartition = \"boot\"\n";
    edited(&[
        ("[board]", "partitions = 5\ncomponents = [\"x\"]\n[board]"),
        ("[[partition]]", "[[partitions]]"),
        ("offset = 0\n", "offset = 0\nlocked = true\n"),
        ("offset = 0\n", "locked = false\noffset = 0\nlock = 1\n"),
        (
            "[[component]]",
            "[[partitions]]\nlocked = 1\n[[component]]\nlocked = 1",
        ),
        ("[[component]]", "[[components]]"),
        (
            "[board]",
            "more = [1, \"a\"]\n[[other]]\n[board.more]\nx = true\n[board]",
        ),
        (chip, "name = \"\"\ntarget = \"riscv64-riscv32\""),
        (desk, &(image.to_owned() + desk)),
        (desk, &(long.to_owned() + desk)),
        (
            "kind = \"app\"",
            "features = []\next_reserve = 0x200\nram = 0xFFFFFFFF",
        ),
        (
            "\"pan tilt\"",
            "[\"\", \"a\", \"a\"]\nload_address = 0\nkind = 7",
        ),
    ])
}

// Those with all lists full are at every limit.
#[test]
fn odd_presets_that_are_accepted_pass() {
    for text in odd().into_iter().chain([large::full(), large::named()]) {
        let read = Preset::validate(text.as_bytes(), b"");
        assert!(read.is_ok(), "{read:?}\n{text}");
        assert!(passes(text.as_bytes()), "{text}");
    }
}

#[test]
fn random_presets_that_are_accepted_pass() {
    let mut r = Rng::new(77);
    let texts = (0..turns(3_000)).map(|_| mixed::text(&mut r));
    let accepted = texts.filter(|text| Preset::validate(text, b"").is_ok());
    let mut met = 0;
    for text in accepted {
        assert!(passes(&text), "{}", String::from_utf8_lossy(&text));
        met += 1;
    }
    assert!(met > turns(300), "{met}");
}

fn wrong() -> Vec<String> {
    edited(&[
        ("chip = \"d13x\"", "chip = \"d12x\""),
        ("chip = \"d13x\"", "chip = 13"),
        ("name = \"boot\"\n", ""),
        ("name = \"first\"\n", ""),
        ("offset = 0\n", ""),
        ("offset = 0\n", "offset = \"0\"\n"),
        ("offset = 0\n", "offset = -1\n"),
        ("size = 0x100000", "size = 0x100000000"),
        ("kind = \"app\"", "kind = \"App\""),
        ("kind = \"app\"", "updater = 1"),
        ("size = 0x100000", "size = 0x100000\nlocked = 1"),
        ("size = 0x100000", "size = 0x100000\nlocked = \"true\""),
        ("kind = \"app\"", "ext_reserve = 256"),
        ("\"first\"", "\"a name of more than 32 characters\""),
        ("\"pan tilt\"", "[1, 2]"),
        ("\"pan tilt\"", "true"),
        (
            "[apps.desk]\npartition = \"profiles\"\n",
            "[apps]\ndesk = 1\n",
        ),
        ("[board]\nchip = \"d13x\"\n", "board = 1\n"),
        (
            "[[partition]]\nname = \"boot\"\n",
            "[[partitions]]\n[[partition]]\n",
        ),
    ])
}

#[test]
fn wrong_presets_do_not_pass() {
    for text in wrong() {
        assert!(Preset::validate(text.as_bytes(), b"").is_err(), "{text}");
        assert!(!passes(text.as_bytes()), "{text}");
    }
}

// What is refused for its fields alone is told by the schema too, but for lists of words in one string (25).
#[test]
fn examples_of_refused_fields_do_not_pass() {
    let entries = explain::entries().into_iter();
    let fields = entries.filter(|entry| (20..25).contains(&entry.number));
    let examples = fields.flat_map(|entry| entry.examples);
    for example in examples.filter(|example| example.tag.is_empty()) {
        assert!(!passes(example.preset.as_bytes()), "{}", example.preset);
    }
}

const HEADINGS: [&str; 5] = [
    "[board]",
    "[image]",
    "[[partition]]",
    "[[component]]",
    "[apps.KEY]",
];

// The crate's own table, which is private: `("chip", Want::Text),` in the order of reading.
fn known() -> Vec<(String, String)> {
    let source = include_str!("../src/fields.rs");
    let rows = source
        .lines()
        .filter_map(|line| line.strip_prefix("    (\""));
    let rows = rows.filter_map(|row| row.strip_suffix("),")?.split_once("\", Want::"));
    rows.map(|(key, want)| (key.into(), want.into())).collect()
}

#[test]
fn fields_are_the_crates_and_no_other() {
    let own = all().into_iter().map(|(_, field)| {
        let want = match field.kind.split(':').next() {
            Some("text" | "word") => "Text",
            Some("number") => "Integer",
            Some("flag") => "Boolean",
            _ => "List",
        };
        (field.key, want.to_string())
    });
    let own: Vec<_> = own.collect();
    assert_eq!(own, known());
    assert_eq!(own.len(), 45);
}

// Every field, with the heading of its section.
fn all() -> Vec<(&'static str, Field)> {
    let each = |heading| {
        paper::fields(heading)
            .into_iter()
            .map(move |f| (heading, f))
    };
    HEADINGS.into_iter().flat_map(each).collect()
}

// A section with a line after what it needs.
fn section(heading: &str, line: &str) -> String {
    let needed = match heading {
        "[[partition]]" => "name = \"a\"\noffset = 0\nsize = 0\n",
        "[[component]]" => "name = \"a\"\n",
        _ => "",
    };
    format!("{heading}\n{needed}{line}\n")
}

// A list of lists is no value of any field.
#[test]
fn keys_of_the_schema_are_read_by_the_library() {
    for (heading, Field { key, .. }) in all() {
        let text = section(heading, &format!("{key} = [[]]"));
        let refused = Preset::read(text.as_bytes(), b"").map_err(|refusal| refusal.number);
        assert_eq!(refused.err(), Some(20), "{text}");
        assert!(!passes(text.as_bytes()), "{text}");
    }
    let other = section("[board]", "other = [[]]");
    assert!(Preset::read(other.as_bytes(), b"").is_ok());
}

// What is written as the default says is read as what is not written.
#[test]
fn defaults_are_the_librarys() {
    let read = |text: String| Preset::read(text.as_bytes(), b"").expect("records");
    let mut met = 0;
    for (heading, field) in all() {
        let default = field.default().map(|value| value.written());
        let line = default.map_or(String::new(), |value| format!("{} = {value}", field.key));
        met += usize::from(!line.is_empty());
        assert_eq!(
            read(section(heading, &line)),
            read(section(heading, "")),
            "{line}"
        );
    }
    assert_eq!(met, 17);
}

// Prints whether each of some values passes a schema.
const PYTHON: &str = "
import json, sys
from jsonschema import Draft7Validator
schema, values = json.load(sys.stdin)
Draft7Validator.check_schema(schema)
print(*[int(Draft7Validator(schema).is_valid(value)) for value in values], sep='')
";

fn has_jsonschema() -> bool {
    let asked = Command::new("python3")
        .args(["-c", "import jsonschema"])
        .output();
    asked.is_ok_and(|told| told.status.success())
}

// Our own reading of the keywords is that of python3's jsonschema, where it is at hand.
#[test]
fn the_check_is_that_of_jsonschema() {
    if !has_jsonschema() {
        println!("not tried: python3 has no jsonschema here");
        return;
    }
    let texts = [sound(), odd(), wrong()].concat();
    let own: String = texts
        .iter()
        .map(|text| if passes(text.as_bytes()) { '1' } else { '0' })
        .collect();
    let trees = texts
        .iter()
        .map(|text| json::tree(text.as_bytes()).expect("a tree"));
    let asked = Json::List([paper::schema(), Json::List(trees.collect())].into());
    let python = Command::new("python3")
        .args(["-c", PYTHON])
        .stdin(Stdio::piped())
        .stdout(Stdio::piped())
        .spawn();
    let mut python = python.expect("python3");
    let mut input = python.stdin.take().expect("a pipe");
    input
        .write_all(asked.written().as_bytes())
        .expect("it is read");
    drop(input);
    let told = python.wait_with_output().expect("an answer");
    assert_eq!(String::from_utf8_lossy(&told.stdout).trim(), own);
}
