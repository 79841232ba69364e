//! docs/REFUSALS.md: every example is answered as it says and is as small as it says, what is
//! mended is accepted, and `explain` prints its words.
use port::document::{self, Outcome};
use port::plans::{self, Selection};
use port::records;
use port::value::{STORE_MIN, TREE_MIN};
use preset::explain::{self, Entry, Example};
use std::collections::BTreeSet;

const PAPER: &str = include_str!("../../../docs/REFUSALS.md");
const BOARD: &[u8] = b"board";

// Fewer are a block that was skipped.
const EXAMPLES: usize = 74;
const MENDED: usize = 55;

// 01's numbers.
fn numbers() -> Vec<u32> {
    let ranges = [1..=17, 20..=25, 30..=35, 40..=48, 50..=67, 70..=70, 80..=81];
    ranges.into_iter().flatten().collect()
}

// Every example with its entry's number.
fn examples() -> Vec<(u32, Example)> {
    let each = |e: Entry| e.examples.into_iter().map(move |x| (e.number, x));
    explain::entries().into_iter().flat_map(each).collect()
}

// What the document says is told, and what was asked.
struct Told {
    refusal: [u32; 3],
    app: Option<&'static str>,
    store: usize,
}

impl Told {
    // `refused 81 5 0` in code, then perhaps a condition, then the place in words.
    fn of(written: &'static str) -> Option<Told> {
        let (code, rest) = written.strip_prefix("`refused ")?.split_once('`')?;
        let numbers: Result<Vec<_>, _> = code.split(' ').map(str::parse).collect();
        let (with, place) = rest.strip_suffix(')')?.split_once(" (")?;
        let app = with.strip_prefix(" with --app ");
        let store = with.strip_prefix(" with a store of ");
        let known = with.is_empty() || app.is_some() || store.is_some();
        (known && !place.is_empty()).then_some(())?;
        let store = match store {
            Some(size) => size.strip_suffix(" bytes")?.replace(',', "").parse().ok()?,
            None => STORE_MIN,
        };
        Some(Told {
            refusal: numbers.ok()?.try_into().ok()?,
            app,
            store,
        })
    }

    fn asked(&self, text: &[u8]) -> Outcome {
        let (mut store, mut tree) = (vec![0xAA; self.store], vec![0xAA; TREE_MIN]);
        let selection = Selection::from(self.app.map(str::as_bytes));
        match self.app {
            Some(_) => plans::plan(text, BOARD, selection, &mut store, &mut tree),
            None => records::validate(text, BOARD, &mut store, &mut tree),
        }
    }
}

fn told(number: u32, example: &Example) -> Told {
    let told = Told::of(example.told);
    told.unwrap_or_else(|| panic!("{number}: told in another form: {}", example.told))
}

// The lines that an example stands for.
fn lines(example: &Example) -> Vec<Vec<u8>> {
    assert!(["", "made"].contains(&example.tag), "{}", example.tag);
    let text = example.text();
    let lines = text.split_inclusive(|b| *b == b'\n');
    lines.map(|l| l[..l.len() - 1].to_vec()).collect()
}

fn text(lines: &[Vec<u8>]) -> Vec<u8> {
    lines
        .iter()
        .flat_map(|l| [l, &b"\n"[..]].concat())
        .collect()
}

#[test]
fn every_example_is_told_as_written() {
    for (number, example) in examples() {
        let told = told(number, &example);
        let got = told.asked(&text(&lines(&example)));
        let got = [got.number, got.section, got.place];
        assert_eq!(got, told.refusal, "{number}:\n{}", example.preset);
        assert_eq!(got[0], number, "\n{}", example.preset);
    }
}

#[test]
fn every_example_needs_all_its_lines() {
    for (number, example) in examples() {
        let (told, all) = (told(number, &example), lines(&example));
        // Of lines that are alike and side by side, it is all one which is gone.
        let differs = |i: &usize| *i == 0 || all[*i] != all[*i - 1];
        for i in (0..all.len()).filter(differs) {
            let fewer = [&all[..i], &all[i + 1..]].concat();
            let got = told.asked(&text(&fewer)).number;
            let line = String::from_utf8_lossy(&all[i]);
            assert_ne!(got, number, "it is told without the line {line}");
        }
    }
}

// Which step refuses with a number; mended, the same step accepts.
fn step(number: u32, told: &Told, text: &[u8]) -> Outcome {
    let (mut store, mut tree) = (vec![0; STORE_MIN], vec![0; TREE_MIN]);
    match number {
        1..=17 => document::read(text, &mut store, &mut tree),
        20..=25 => records::read(text, BOARD, &mut store, &mut tree),
        _ => told.asked(text),
    }
}

#[test]
fn every_mended_example_is_accepted() {
    for entry in explain::entries() {
        let Some(mended) = entry.mended else { continue };
        let told = told(entry.number, &entry.examples[0]);
        let before = step(entry.number, &told, &text(&lines(&entry.examples[0])));
        assert_eq!(before.number, entry.number, "another step refuses it");
        let got = step(entry.number, &told, mended.as_bytes());
        assert_eq!(got.number, 0, "{}:\n{mended}", entry.number);
    }
}

// These have nothing to show: a text that is shorter, and memory that is lent.
const NOT_MENDED: [u32; 4] = [1, 16, 17, 25];

#[test]
fn what_can_be_mended_is_shown() {
    for entry in explain::entries() {
        let shown = entry.mended.is_some();
        assert_ne!(
            shown,
            NOT_MENDED.contains(&entry.number),
            "{}",
            entry.number
        );
    }
}

// What entries say besides their examples: lines after a sound preset, `/` between two of them,
// and the answer.
const BESIDES: [(&str, u32); 31] = [
    ("", 0),
    (r##"features = ["pan" # ]"##, 4),
    ("\u{feff}[board]", 5),
    (r#"name = """boot""""#, 10),
    ("name = 'boot'", 12),
    ("ram = {}", 12),
    ("ext_reserve = 1_024", 0),
    ("[component.spare] / [[component]]", 13),
    (r#"[[partition]] / name = "late" / ofset = 0x1000"#, 24),
    (
        r#"features = "a a a a a a a a a a a a a a a a a a a a a a a a a a a a a a a a a""#,
        25,
    ),
    (
        r#"[board] / chip = "d13x" / [image] / platform = "desk""#,
        31,
    ),
    (r#"[image] / app = "ééééééééééééééééé""#, 33),
    (r#"[board] / target = "riscv32-riscv64""#, 0),
    (r#"file = """#, 53),
    (r#"partition = " boot ;mtd""#, 0),
    (r#"partition = "Boot""#, 58),
    (
        r#"pbp_package = "p" / [[component]] / name = "b" / package = "p" / partition = "boot""#,
        0,
    ),
    (
        r#"features = "f" / pbp_package = "p" / [apps.p] / partition = "boot""#,
        60,
    ),
    (
        r#"features = "f g f" / [apps.loader] / partition = "boot" / features = ["g", "f"]"#,
        0,
    ),
    (
        r#"features = "f" / pbp_features = "g" / pbp_package = "loader" / [[component]] / name = "b" / package = "loader" / partition = "boot" / features = "g""#,
        0,
    ),
    (r#"[apps.desk] / name = "loader" / partition = "boot""#, 0),
    (r#"[apps.desk] / partition = " boot""#, 64),
    (
        r#"updater = true / ram = 0 / partition = "" / [apps.desk] / partition = "boot""#,
        70,
    ),
    // locks: the order of an entry's fields, who may lie where, and what is compared
    (
        r#"[[partition]] / name = "c" / offset = 0x1000 / locked = 1"#,
        24,
    ),
    (
        r#"[[partition]] / name = "c" / offset = 0x1000 / size = -1 / locked = 1"#,
        21,
    ),
    (
        r#"[[partition]] / name = "c" / offset = 0 / size = 0 / locked = 1 / [[partition]]"#,
        20,
    ),
    (
        r#"[[component]] / name = "b" / file = "f" / partition = "c" / [[partition]] / name = "c" / offset = 0x1000 / size = 0x1000 / locked = true"#,
        0,
    ),
    (
        r#"[[partition]] / name = "c" / offset = 0x1000 / size = 0x1000 / locked = true / [apps.desk] / partition = "c;mtd""#,
        64,
    ),
    (
        r#"[[partition]] / name = "c" / offset = 0x1000 / size = 0x1000 / locked = true / [[partition]] / name = "c;mtd" / offset = 0x2000 / size = 0x1000 / [apps.desk] / partition = "c;mtd""#,
        0,
    ),
    (
        r#"[[partition]] / name = "c" / offset = 0x1000 / size = 0x1000 / locked = true / [apps.a] / name = "b" / partition = "boot" / [apps.b] / partition = "c""#,
        67,
    ),
    (
        r#"locked = 1 / [[partitions]] / locked = 1 / [apps.desk] / locked = 1 / partition = "boot""#,
        0,
    ),
];

#[test]
fn what_entries_say_besides_is_so() {
    let sound = explain::entry(58).and_then(|e| e.mended).expect("a preset");
    let (mut store, mut tree) = (vec![0; STORE_MIN], vec![0; TREE_MIN]);
    for (lines, number) in BESIDES {
        let text = format!("{sound}{}\n", lines.replace(" / ", "\n"));
        let got = records::validate(text.as_bytes(), BOARD, &mut store, &mut tree);
        assert_eq!(got.number, number, "{lines}");
    }
}

// 16's entry counts the values of two lists.
#[test]
fn a_list_in_one_string_is_one_value() {
    let (mut store, mut tree) = (vec![0; STORE_MIN], vec![0; TREE_MIN]);
    let mut made = |text: &str| document::read(text.as_bytes(), &mut store, &mut tree).made;
    assert_eq!(made("features = \"pan tilt zoom\""), 1);
    assert_eq!(made("features = [\"pan\", \"tilt\", \"zoom\"]"), 4);
}

#[test]
fn every_number_has_its_entry() {
    let entries = explain::entries();
    let got: Vec<_> = entries.iter().map(|e| e.number).collect();
    assert_eq!(got, numbers());
    for (number, entry) in numbers().into_iter().zip(entries) {
        assert_eq!(explain::words(number), Some(entry.words));
        assert_eq!(explain::entry(number), Some(entry));
    }
    for number in [0, 18, 19, 26, 49, 68, 82, u32::MAX] {
        assert_eq!(explain::entry(number), None);
        assert_eq!(explain::words(number), None);
    }
}

#[test]
fn nothing_of_the_document_is_lost() {
    let count = |begin: &str| PAPER.lines().filter(|l| l.starts_with(begin)).count();
    let (entries, examples) = (explain::entries(), examples());
    let mended = entries.iter().filter(|e| e.mended.is_some()).count();
    assert_eq!(count("## "), entries.len());
    assert_eq!(count("Told: "), examples.len());
    assert_eq!(count("Mend: "), entries.len());
    assert_eq!(count("Mended:"), mended);
    assert_eq!(count("```toml"), examples.len() + mended);
    assert_eq!(count("```"), 2 * count("```toml"));
    assert!(examples.len() >= EXAMPLES, "{} examples", examples.len());
    assert!(mended >= MENDED, "{mended} mended ones");
}

#[test]
fn the_words_are_few() {
    let entries = explain::entries();
    for Entry { number, words, .. } in &entries {
        let long = words.chars().count();
        let marks = words.ends_with('.') || words.contains(['`', '\n']);
        assert!((4..=60).contains(&long) && !marks, "{number}: {words}");
    }
    let apart: BTreeSet<_> = entries.iter().map(|e| e.words).collect();
    assert_eq!(
        apart.len(),
        entries.len(),
        "two numbers have the same words"
    );
}

// The place in words is the one in numbers.
#[test]
fn places_are_named() {
    for (number, example) in examples() {
        let [_, section, place] = told(number, &example).refusal;
        let words = example.told.split_once(" (").expect("words").1;
        let named = match (section, place) {
            (0, 0) => "no line".into(),
            (0, line) => format!("line {line}"),
            (1, _) => "the board".into(),
            (2, _) => "the image".into(),
            (3, _) => "partition".into(),
            (4, _) => "component".into(),
            _ => "application".into(),
        };
        assert!(words.contains(&named), "{number}: {words} has no {named}");
        for (n, ordinal) in ["the first", "the second", "the third"].iter().enumerate() {
            let right = !words.contains(ordinal) || place == n as u32;
            assert!(right, "{number}: {words} and {place}");
        }
    }
}

// The document's chapter without its marks.
fn chapter(number: u32) -> Vec<&'static str> {
    let head = format!("\n## {number}: ");
    let from = PAPER.find(&head).expect("a chapter") + 4;
    let until = PAPER[from..]
        .find("\n## ")
        .map_or(PAPER.len(), |n| from + n);
    let plain = PAPER[from..until].lines().filter(|l| !l.starts_with("```"));
    plain.flat_map(str::split_whitespace).collect()
}

// What is printed without what the command says of examples.
fn without_words(entry: &Entry) -> String {
    let said = entry.examples.iter().filter_map(Example::said);
    said.fold(entry.to_string(), |printed, said| {
        let words = format!("Told:\n\n    {said}\n\nIn numbers:");
        printed.replacen(&words, "Told:", 1)
    })
}

#[test]
fn explain_prints_the_document_word_by_word() {
    for entry in explain::entries() {
        let printed = without_words(&entry);
        let words: Vec<_> = printed.split_whitespace().collect();
        assert_eq!(words, chapter(entry.number), "{}", entry.number);
        for part in [entry.meaning, entry.told, entry.mending, entry.words] {
            assert!(!part.trim().is_empty(), "{}: {part:?}", entry.number);
        }
        assert!(!printed.contains("```") && !printed.ends_with('\n'));
    }
}

#[test]
fn explain_keeps_the_lines_of_presets() {
    for entry in explain::entries() {
        let printed = entry.to_string();
        let presets = entry.examples.iter().map(|x| x.preset).chain(entry.mended);
        for preset in presets {
            let block: String = preset.lines().map(|l| format!("    {l}\n")).collect();
            assert!(
                printed.contains(block.trim_end()),
                "{}:\n{block}",
                entry.number
            );
        }
        let long = |l: &&str| l.chars().count() > 80 && !l.starts_with("    ");
        assert_eq!(printed.lines().find(long), None);
    }
}

// Each example in a file of its own: the command's line about it is what `explain` shows.
#[test]
fn explain_says_what_the_command_says() {
    let folder = std::env::temp_dir().join(format!("preset-explain-{}", std::process::id()));
    std::fs::create_dir_all(&folder).expect("a folder for examples");
    let mut met = 0;
    for (number, example) in examples() {
        let Some(said) = example.said() else { continue };
        std::fs::write(folder.join("preset.toml"), example.text()).expect("it is written");
        let words = match example.app() {
            Some(key) => vec!["plan", "preset.toml", "--app", key],
            None => vec!["check", "preset.toml"],
        };
        let answer = command(&words)
            .current_dir(&folder)
            .output()
            .expect("it runs");
        let both = String::from_utf8([answer.stdout, answer.stderr].concat()).expect("UTF-8");
        assert_eq!(both.lines().next(), Some(said.as_str()), "{number}");
        met += 1;
    }
    std::fs::remove_dir_all(&folder).expect("the folder is removed");
    // all but the one of 17, which the command never tells
    assert_eq!(met, examples().len() - 1);
}

// Elsewhere than on x86-64 `rust/cross` names an emulator.
fn command(words: &[&str]) -> std::process::Command {
    let program = env!("CARGO_BIN_EXE_preset");
    let runner = std::env::var("CARGO_TARGET_X86_64_UNKNOWN_LINUX_GNU_RUNNER");
    let mut command = std::process::Command::new(runner.as_deref().unwrap_or(program));
    command.args(runner.iter().map(|_| program)).args(words);
    command
}

#[test]
fn what_explain_prints_of_58() {
    let first = explain::entry(58).expect("an entry").to_string();
    let lines: Vec<_> = first.lines().take(20).collect();
    let expected = "\
58: unknown partition

A component goes to a partition that the preset does not have. Of its
reference the part before the first `;` counts, without blanks at its ends;
capital letters count.

    [[partition]]
    name = \"boot\"
    offset = 0
    size = 0x1000
    [[component]]
    name = \"loader\"
    package = \"loader\"
    partition = \"bot\"

Told:

    preset.toml:8: component 0 \"loader\": refused 58: unknown partition \"bot\" (\"boot\"?); there is boot

In numbers: `refused 58 4 0` (the first component)";
    assert_eq!(lines.join("\n"), expected);
}
