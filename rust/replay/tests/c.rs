//! The library from C: its header against the archive and the wrappers, and a program that is compiled and run.
use port::{ARCHIVE, document, listing, plans, records, text, value};
use std::mem::{offset_of, size_of};
use std::path::{Path, PathBuf};
use std::process::{Command, Output, Stdio};

// A variable of cargo for the machine that the library is for; `rust/cross` sets them elsewhere.
fn set(name: &str) -> Option<String> {
    std::env::var(format!("CARGO_TARGET_X86_64_UNKNOWN_LINUX_GNU_{name}")).ok()
}

fn here() -> &'static Path {
    Path::new(env!("CARGO_MANIFEST_DIR"))
}

// What compiles C, or C++; of the one that `rust/cross` names for C there may be one for C++ beside it.
fn compiler(standard: &str) -> String {
    match (set("LINKER"), standard.starts_with("c++")) {
        (Some(own), true) => format!("{}g++", own.strip_suffix("gcc").unwrap_or(&own)),
        (Some(own), false) => own,
        (None, true) => "g++".into(),
        (None, false) => "cc".into(),
    }
}

// Compiles with every warning an error, to a file below target/.
fn compiled(source: &Path, out: &str, standard: &str, more: &[&str]) -> PathBuf {
    let out = Path::new(env!("CARGO_TARGET_TMPDIR")).join(format!("{out}-{standard}"));
    let mut command = Command::new(compiler(standard));
    let flags = set("RUSTFLAGS").unwrap_or_default();
    let flags = flags.split(' ');
    command.args(flags.filter_map(|flag| flag.strip_prefix("-Clink-arg=")));
    command.arg(format!("-std={standard}"));
    command.args(["-O1", "-Wall", "-Wextra", "-Wpedantic", "-Werror", "-I"]);
    command.arg(here().join("../port/include")).arg(source);
    let told = command.args(more).arg("-o").arg(&out).output();
    let told = told.expect("a compiler");
    let said = String::from_utf8_lossy(&told.stderr);
    assert!(told.status.success(), "{standard}: {said}");
    out
}

fn run(program: &Path, words: &[&str]) -> Output {
    run_with(program, words, Stdio::null())
}

fn run_with(program: &Path, words: &[&str], input: Stdio) -> Output {
    let mut command = match set("RUNNER") {
        Some(runner) => {
            let mut command = Command::new(runner);
            command.arg(program);
            command
        }
        None => Command::new(program),
    };
    let command = command.args(words).stdin(input);
    command.output().expect("it runs")
}

// What a program says of a preset by its file's name, with more words after it.
fn told(program: &Path, preset: &str, more: &[&str]) -> (Option<i32>, String) {
    let path = here().join("../../presets").join(preset);
    let words = [&[path.to_str().expect("a plain path")], more].concat();
    let told = run(program, &words);
    let printed = String::from_utf8_lossy(&told.stdout).into_owned();
    (told.status.code(), printed)
}

#[test]
fn example_in_each_c() {
    let source = here().join("tests/c/example.c");
    for standard in ["c99", "c11", "c17"] {
        plans(&compiled(&source, "example", standard, &[ARCHIVE]));
    }
}

fn plans(program: &Path) {
    let plan = |preset: &str, key: &[&str]| told(program, preset, key);
    let boot_chain = "21 values, stem loader\ncomponent first at 0\nbuild loader\n";
    assert_eq!(plan("example.toml", &[]), (Some(0), boot_chain.into()));
    let desk = "21 values, stem desk\ncomponent desk at 262144\ncomponent first at 0\n\
                build loader\nbuild desk +pan +tilt\n";
    assert_eq!(plan("example.toml", &["desk"]), (Some(0), desk.into()));
    assert_eq!(
        plan("example.toml", &["x"]),
        (Some(1), "refused 80 5 0\n".into())
    );
    assert_eq!(plan("../README.md", &[]).0, Some(1));
    let (code, printed) = plan("stage-d13x.toml", &[]);
    assert_eq!(code, Some(0), "{printed}");
}

// What HOST.md says of the archive: it calls `memcpy` and `memset` alone, and has no data that is written, not even by
// a loader.
#[test]
fn host_without_libc_or_loader() {
    let source = here().join("tests/c/bare.c");
    let bare = ["-ffreestanding", "-fPIE", "-nostdlib", "-static-pie"];
    let program = compiled(&source, "bare", "c11", &[&[ARCHIVE], &bare[..]].concat());
    for preset in ["example.toml", "stage-d13x.toml", "tour-d21x.toml"] {
        let path = here().join("../../presets").join(preset);
        let text = std::fs::read(&path).expect("a preset");
        let mut out = vec![0; listing::out_min(b"board")];
        let (mut store, mut tree) = (vec![0; value::STORE_MIN], vec![0; value::TREE_MIN]);
        let listed = listing::list(&text, b"board", &mut store, &mut tree, &mut out);
        let input = std::fs::File::open(&path).expect("a preset").into();
        let told = run_with(&program, &[], input);
        assert_eq!(told.status.code(), Some(0), "{preset}");
        assert_eq!(told.stdout, out[..listed.written as usize], "{preset}");
    }
}

// Where programs are emulated there need not be a compiler of C++.
#[test]
fn example_in_cpp() {
    let there = Command::new(compiler("c++17")).arg("--version").output();
    if there.is_err() && std::env::var_os("PRESET_EMULATED").is_some() {
        println!("not tried as C++: there is no {}", compiler("c++17"));
        return;
    }
    let source = here().join("tests/c/example.cpp");
    let program = compiled(&source, "example", "c++17", &[ARCHIVE]);
    let partitions = "d13x\nboot 0 262144\nprofiles 262144 1048576\n";
    let said = |preset| told(&program, preset, &[]);
    assert_eq!(said("example.toml"), (Some(0), partitions.into()));
    assert_eq!(said("tour-d21x.toml").1.lines().next(), Some("d21x"));
    let refused = Path::new(env!("CARGO_TARGET_TMPDIR")).join("refused.toml");
    std::fs::write(&refused, "# none\nx\n").expect("target/ can be written");
    let line = (Some(1), "refused 5 at line 2\n".into());
    assert_eq!(said(refused.to_str().expect("a plain path")), line);
}

// What C and Rust must agree in: a struct's size, and where each of its fields stands. A field has the same name in
// both, or C's before Rust's.
macro_rules! layouts {
    ($($c:ident = $rust:ty { $($field:tt $(: $own:ident)?),* $(,)? })*) => {{
        let mut out = String::from("#include \"preset.h\"\n");
        $(
            let size = size_of::<$rust>();
            out += &format!("_Static_assert(sizeof({0}) == {size}, \"{0}\");\n", stringify!($c));
            $(
                let at = layouts!(@at $rust, $field $(, $own)?);
                let (c, field) = (stringify!($c), stringify!($field));
                out += &format!(
                    "_Static_assert(offsetof({c}, {field}) == {at}, \"{c}.{field}\");\n"
                );
            )*
        )*
        out
    }};
    (@at $rust:ty, $field:ident) => { offset_of!($rust, $field) };
    (@at $rust:ty, $field:ident, $own:ident) => { offset_of!($rust, $own) };
}

fn layouts() -> String {
    layouts! {
        preset_outcome = document::Outcome { number, section, place, made }
        preset_listed = listing::Listed { number, section, place, written }
        preset_bytes = records::Bytes { kind, word, from, len }
        preset_amount = records::Amount { kind, number }
        preset_features = records::FeatureList { kind, from, len }
        preset_board_view = records::BoardView { found, chip, name, target, profile }
        preset_image_view = records::ImageView {
            found, media, media_dev_id, platform, product, version, media_id, app
        }
        preset_count_view = records::Counts { partitions, components, applications }
        preset_partition_view = records::PartitionView { found, offset, size, from, len, locked }
        preset_head_view = records::HeadView { found, kind, name, package, bin, file, filename }
        preset_role_view = records::RoleView {
            found, features, pbp_features, partition, attr, target_attr, target_filename
        }
        preset_boot_view = records::BootView {
            found, updater, ram, pbp, pbp_package, private_path: private
        }
        preset_load_view = records::LoadView {
            found, with_ext, ext_reserve, load_address, entry_point, entry_offset, header_version
        }
        preset_application_view = records::ApplicationView {
            found, package, name, partition, filename, attr, features, load_address, entry_offset
        }
        preset_feature_view = records::FeatureView { found, from, len }
        preset_plan_source_view = plans::SourceView { kind, package, bin, features, file }
        preset_plan_build_view = plans::BuildView { found, package, bin, features }
        preset_plan_count_view = plans::PlanCounts { components, builds }
        preset_tree_value = value::Slot { kind, parent, key, len, data }
        preset_value_spelling = value::Decoded { number, used, written, at }
        preset_value_segments = value::Segments { number, count, used }
        preset_value_made = value::ValueRead { number, used, made }
        preset_text_span = text::Span { from, end }
        preset_text_scanned = text::Scanned { state, opens, closes }
        preset_text_laid = text::Lines { number, section, place, lines, used }
        preset_text_line = text::Line { kind, line, from, end, next, next_line }
    }
}

#[test]
fn structs_are_laid_out_alike() {
    let sizes = [
        ("PRESET_TEXT_MAX", text::TEXT_MAX),
        ("PRESET_STORE_MIN", value::STORE_MIN),
        ("PRESET_VALUE_SIZE", value::SLOT),
        ("PRESET_TREE_MIN", value::TREE_MIN),
        ("PRESET_SCRATCH_MIN", text::SCRATCH_MIN),
        ("PRESET_OUT_MIN(0)", listing::out_min(b"")),
        ("PRESET_OUT_MIN(5)", listing::out_min(b"board")),
        // the first that is 17 for its length, in a number that twice of it would not fit
        ("PRESET_OUT_MIN(2147412224u)", 1 << 32),
        ("PRESET_WORD_MIN", records::WORD_MIN),
        ("PRESET_WORD_AIC", fixed(b".aic")),
        ("PRESET_ROOT", document::ROOT.into()),
        // these two are private to the wrappers
        ("sizeof(preset_tree_at)", 16),
        ("sizeof(preset_value_number)", 16),
    ];
    let sizes = sizes.map(|(c, rust)| format!("_Static_assert({c} == {rust}, \"{c}\");\n"));
    let source = Path::new(env!("CARGO_TARGET_TMPDIR")).join("layouts.c");
    std::fs::write(&source, layouts() + &sizes.concat()).expect("target/ can be written");
    for standard in ["c11", "c17"] {
        compiled(&source, "layouts.o", standard, &["-c"]);
    }
}

// The number of a fixed word.
fn fixed(word: &[u8]) -> usize {
    let mut out = [0; records::WORD_MIN];
    let mut found = (1..100).filter(|n| {
        let length = records::word(*n, &mut out);
        out[..length] == *word
    });
    found.next().expect("a fixed word") as usize
}

// What an accepted call leaves.
struct Left {
    store: Vec<u8>,
    tree: Vec<u8>,
    got: document::Outcome,
}

impl Left {
    fn by(ask: impl FnOnce(&mut [u8], &mut [u8]) -> document::Outcome) -> Left {
        let (mut store, mut tree) = (vec![0; value::STORE_MIN], vec![0; value::TREE_MIN]);
        let got = ask(&mut store, &mut tree);
        Left { store, tree, got }
    }

    fn read(text: &str) -> Left {
        Left::by(|store, tree| records::read(text.as_bytes(), b"board", store, tree))
    }

    fn rooms(&self) -> records::Rooms<'_> {
        let Left { store, tree, got } = self;
        let made = got.made as usize;
        records::Rooms { tree, store, made }
    }
}

type Numbers = Vec<(&'static str, u32)>;

fn sections() -> Numbers {
    let refused = [
        ("PRESET_SECTION_TEXT", "x"),
        ("PRESET_SECTION_BOARD", "board = 1"),
        ("PRESET_SECTION_IMAGE", "image = 1"),
        ("PRESET_SECTION_PARTITION", "partition = 1"),
        ("PRESET_SECTION_COMPONENT", "component = 1"),
        ("PRESET_SECTION_APPLICATION", "apps = 1"),
    ];
    let refused = refused.map(|(name, text)| (name, Left::read(text).got.section));
    refused.into()
}

fn words() -> Numbers {
    let chip = |word| Left::read(&format!("[board]\nchip = \"{word}\""));
    let chip = |word| chip(word).rooms().board(b"").chip;
    let media = |word| Left::read(&format!("[image]\nmedia = \"{word}\""));
    let media = |word| media(word).rooms().image().media;
    let kind = |word| Left::read(&format!("[[component]]\nname = \"x\"\nkind = \"{word}\""));
    let kind = |word| kind(word).rooms().head(0).kind;
    vec![
        ("PRESET_CHIP_D13X", chip("d13x")),
        ("PRESET_CHIP_D21X", chip("d21x")),
        ("PRESET_MEDIA_SPI_NOR", media("spi-nor")),
        ("PRESET_MEDIA_SPI_NAND", media("spi-nand")),
        ("PRESET_COMPONENT_APP", kind("app")),
        ("PRESET_COMPONENT_PBP", kind("pbp")),
        ("PRESET_COMPONENT_RAW", kind("raw")),
    ]
}

// One component with little and one with much, an application, and a first partition.
const SHOWN: &str = "[[partition]]\nname = \"a\"\noffset = 0\nsize = 4096\n\
                     [[component]]\nname = \"x\"\npackage = \"p\"\npartition = \"a\"\n\
                     [[component]]\nname = \"y\"\nfile = \"f\"\npartition = \"a\"\nram = 1\n\
                     features = \"f\"\npbp_features = [\"f\"]\n\
                     [apps.desk]\npartition = \"a\"\n";

fn kinds_of_views() -> Numbers {
    let left =
        Left::by(|store, tree| plans::plan(SHOWN.as_bytes(), b"board", None.into(), store, tree));
    assert_eq!(left.got.number, 0);
    let (rooms, selection) = (left.rooms(), None.into());
    let plan = plans::Planned { rooms, selection };
    vec![
        ("PRESET_BYTES_ABSENT", rooms.head(0).file.kind),
        ("PRESET_BYTES_STORE", rooms.head(0).name.kind),
        ("PRESET_BYTES_NAME", rooms.board(b"board").name.kind),
        ("PRESET_BYTES_WORD", rooms.role(0).attr.kind),
        ("PRESET_BYTES_STORE_AIC", rooms.application(0).filename.kind),
        ("PRESET_AMOUNT_ABSENT", rooms.boot(0).ram.kind),
        ("PRESET_AMOUNT_NUMBER", rooms.boot(1).ram.kind),
        ("PRESET_FEATURES_NONE", rooms.role(0).features.kind),
        ("PRESET_FEATURES_WORDS", rooms.role(1).features.kind),
        ("PRESET_FEATURES_ITEMS", rooms.role(1).pbp_features.kind),
        ("PRESET_SOURCE_NONE", plan.pbp(0).kind),
        ("PRESET_SOURCE_PACKAGE", plan.source(0).kind),
        ("PRESET_SOURCE_FILE", plan.source(1).kind),
    ]
}

fn kinds_of_values() -> Numbers {
    let first = |text: &str| {
        let left = Left::by(|store, tree| document::read(text.as_bytes(), store, tree));
        value::slot(&left.tree, 0).kind
    };
    vec![
        ("PRESET_VALUE_NONE", first("")),
        ("PRESET_VALUE_STRING", first("a = \"\"")),
        ("PRESET_VALUE_INTEGER", first("a = 1")),
        ("PRESET_VALUE_BOOLEAN", first("a = true")),
        ("PRESET_VALUE_ARRAY", first("a = []")),
        ("PRESET_VALUE_TABLE", first("[a]")),
        ("PRESET_VALUE_NEGATIVE", first("a = -1")),
    ]
}

fn kinds_of_text() -> Numbers {
    let state = |s: &str| text::scan(s.as_bytes()).state.into();
    let line = |laid: &str| text::next(laid.as_bytes(), 0, 1).kind;
    vec![
        ("PRESET_STRING_OUTSIDE", state("a")),
        ("PRESET_STRING_INSIDE", state("\"a")),
        ("PRESET_STRING_ESCAPED", state("\"a\\")),
        ("PRESET_LINE_NONE", line("")),
        ("PRESET_LINE_JOINED", line("a\n")),
        ("PRESET_LINE_REFUSED_3", line("]\n")),
        ("PRESET_LINE_REFUSED_4", line("[\n")),
    ]
}

fn header() -> String {
    std::fs::read_to_string(here().join("../port/include/preset.h")).expect("the header")
}

#[test]
fn names_of_numbers_are_the_librarys() {
    let groups = [
        sections(),
        words(),
        kinds_of_views(),
        kinds_of_values(),
        kinds_of_text(),
    ];
    let mut want = groups.concat();
    let header = header();
    let parts: Vec<&str> = header.split([' ', ',', '\n']).collect();
    let named = parts.windows(3).filter(|part| part[1] == "=");
    let named = named.map(|part| (part[0], part[2].parse().expect("a number")));
    let mut named: Vec<(&str, u32)> = named.collect();
    want.sort();
    named.sort();
    assert_eq!(named, want);
}

// The version of the crate is the one of its manifest.
#[test]
fn version_is_the_crates() {
    let manifest = here().join("../preset/Cargo.toml");
    let manifest = std::fs::read_to_string(manifest).expect("the manifest");
    let own = manifest.lines().find_map(|l| l.strip_prefix("version = "));
    let own = own.expect("a version");
    let header = header();
    let said = |name: &str| {
        let head = format!("#define PRESET_VERSION{name} ");
        header.lines().find_map(|line| line.strip_prefix(&head))
    };
    assert_eq!(said(""), Some(own));
    let parts = own.trim_matches('"').split('.').map(Some);
    assert!(parts.eq(["_MAJOR", "_MINOR", "_PATCH"].map(said)));
}

// The names in the archive's own index, which is its first member.
fn exported() -> Vec<String> {
    let all = std::fs::read(ARCHIVE).expect("the archive");
    let index = all.strip_prefix(b"!<arch>\n/ ").expect("an index")[58..].to_vec();
    let count = u32::from_be_bytes(index[..4].try_into().expect("four bytes")) as usize;
    let names = index[4 + 4 * count..].split(|&b| b == 0).take(count);
    names
        .map(|name| String::from_utf8_lossy(name).into())
        .collect()
}

// The functions that the header declares: each begins a line with its type.
fn declared(header: &str) -> Vec<&str> {
    let begun = header
        .lines()
        .filter(|line| line.starts_with(|c: char| c.is_ascii_lowercase()));
    let named = begun.filter(|line| !line.starts_with("typedef"));
    let names = named.filter_map(|line| line.split_once('(')?.0.split(' ').next_back());
    names.collect()
}

// The names that are fixed; all else has the prefix.
const FIXED: [&str; 5] = [
    "document_read",
    "preset_read",
    "preset_validate",
    "preset_plan",
    "preset_listing",
];

#[test]
fn every_export_is_declared_and_described() {
    let described = std::fs::read_to_string(here().join("../../docs/HOST.md")).expect("it");
    let header = header();
    let mut names = exported();
    let mut declared = declared(&header);
    names.sort();
    declared.sort();
    assert_eq!(names, declared);
    assert!(FIXED.iter().all(|name| declared.contains(name)));
    for name in names {
        let own = name.starts_with("preset_") || FIXED.contains(&&*name);
        assert!(own, "{name} has no prefix");
        let said = described.contains(&format!("`{name}`"));
        assert!(said, "{name} is not described");
    }
}

// Right above each function stands what it asks and answers; and no line is longer than 120 characters.
#[test]
fn every_function_has_a_comment() {
    let header = header();
    let lines: Vec<&str> = header.lines().collect();
    for name in declared(&header) {
        let begun = format!(" {name}(");
        let at = lines.iter().position(|line| line.contains(&begun));
        let above = at.and_then(|at| lines.get(at.checked_sub(1)?));
        assert!(above.is_some_and(|line| line.ends_with("*/")), "{name}");
    }
    let long = lines.iter().find(|line| line.chars().count() > 120);
    assert_eq!(long, None);
}
