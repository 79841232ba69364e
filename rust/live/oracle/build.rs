//! Copies the original's files, unchanged, to OUT_DIR and appends to the copies a module that
//! hands out their private functions. The files of the source tree are only read.
use std::path::{Path, PathBuf};
use std::{env, fs};

const TOML_PROBE: &str = r##"
#[allow(dead_code)]
pub mod probe {
    use super::Value;
    pub fn logical_lines(s: &str) -> Result<Vec<String>, String> { super::logical_lines(s) }
    pub fn strip_comment(s: &str) -> String { super::strip_comment(s) }
    pub fn brackets_balanced(s: &str) -> Result<bool, String> { super::brackets_balanced(s) }
    pub fn quotes_closed(s: &str) -> bool { super::quotes_closed(s) }
    pub fn strip_single_brackets(s: &str) -> Option<&str> { super::strip_single_brackets(s) }
    pub fn split_assignment(s: &str) -> Result<Option<(&str, &str)>, String> { super::split_assignment(s) }
    pub fn split_key(s: &str) -> Result<Vec<String>, String> { super::split_key(s) }
    pub fn unquote(s: &str) -> Result<(String, usize), String> { super::unquote(s) }
    pub fn parse_value(s: &str) -> Result<Value, String> { super::parse_value(s) }
    pub fn parse_array(s: &str) -> Result<Vec<Value>, String> { super::parse_array(s) }
    pub fn split_top_level(s: &str, c: char) -> Vec<String> { super::split_top_level(s, c) }
    pub fn parse_int(s: &str) -> Result<i64, String> { super::parse_int(s) }
    pub fn push_array_table(t: &mut super::Table, p: &[String]) -> Result<(), String> { super::push_array_table(t, p) }
}
"##;

const SCHEMA_PROBE: &str = r##"
#[allow(dead_code)]
pub mod probe {
    pub fn name_of(s: &str) -> &str { super::PartitionSpec::name_of(s) }
}
"##;

const PARSE_PROBE: &str = r##"
#[allow(dead_code)]
pub mod probe {
    pub fn string_list(t: &super::Table, k: &str) -> super::Result<Vec<String>> { super::string_list_field(Some(t), k) }
    pub fn int(t: &super::Table, k: &str) -> super::Result<Option<u32>> { super::int_field(Some(t), k) }
}
"##;

// `parse` is private in preset.rs; a child of `preset` can hand it out.
const PRESET_PROBE: &str = r##"
pub mod probe {
    pub use super::parse::probe as parse;
    pub use super::schema::probe as schema;
}
"##;

// Source, place below OUT_DIR, what is appended.
const FILES: [(&str, &str, &str); 6] = [
    ("toml_lite.rs", "toml_lite.rs", TOML_PROBE),
    // reached by #[path], so it is a mod.rs and its children stand beside it
    ("preset.rs", "preset/mod.rs", PRESET_PROBE),
    ("preset/schema.rs", "preset/schema.rs", SCHEMA_PROBE),
    ("preset/parse.rs", "preset/parse.rs", PARSE_PROBE),
    ("preset/validate.rs", "preset/validate.rs", ""),
    ("preset/plan.rs", "preset/plan.rs", ""),
];

fn main() {
    let from = sources();
    let out = PathBuf::from(env::var_os("OUT_DIR").expect("cargo sets OUT_DIR"));
    fs::create_dir_all(out.join("preset")).expect("OUT_DIR can be written");
    for (source, place, more) in FILES {
        let path = from.join(source);
        println!("cargo:rerun-if-changed={}", path.display());
        let text = fs::read_to_string(&path).unwrap_or_else(|e| {
            panic!(
                "{}: {e}; AICFWC_SRC may name the folder that holds aicfwc/",
                path.display()
            )
        });
        fs::write(out.join(place), text + more).expect("OUT_DIR can be written");
    }
    println!("cargo:rerun-if-changed=build.rs");
    println!("cargo:rerun-if-env-changed=AICFWC_SRC");
    let o = out.display();
    let tree = format!(
        "#[path = \"{o}/toml_lite.rs\"]\npub mod toml_lite;\n#[path = \"{o}/preset/mod.rs\"]\npub mod preset;\n"
    );
    fs::write(out.join("tree.rs"), tree).expect("OUT_DIR can be written");
}

// The original stands beside the repository, or where AICFWC_SRC says.
fn sources() -> PathBuf {
    if let Some(folder) = env::var_os("AICFWC_SRC").filter(|f| !f.is_empty()) {
        return PathBuf::from(folder).join("aicfwc/src");
    }
    let here = Path::new(env!("CARGO_MANIFEST_DIR"));
    let root = here
        .ancestors()
        .nth(3)
        .expect("rust/live/oracle has a root above");
    root.join("../shared/docs/src/aicfwc/src")
}
