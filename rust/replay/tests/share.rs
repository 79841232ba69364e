//! The man page and the completions for shells: they know what the command's help and the refusals' document know.
use std::collections::BTreeSet;
use std::path::{Path, PathBuf};
use std::process::{Command, Output, Stdio};

const HELP: &str = include_str!("../../preset/src/bin/preset/help.txt");
const PAPER: &str = include_str!("../../../docs/REFUSALS.md");
const MAN: &str = include_str!("../../preset/share/preset.1");
const BASH: &str = include_str!("../../preset/share/preset.bash");
const ZSH: &str = include_str!("../../preset/share/_preset");
const FISH: &str = include_str!("../../preset/share/preset.fish");

fn share(name: &str) -> PathBuf {
    Path::new(env!("CARGO_MANIFEST_DIR"))
        .join("../preset/share")
        .join(name)
}

// The words of a text that can be commands, options or numbers.
fn words(text: &str) -> BTreeSet<&str> {
    let apart = |c: char| !c.is_ascii_alphanumeric() && c != '-';
    text.split(apart).collect()
}

fn is_option(word: &str) -> bool {
    let letter = |c: char| c.is_ascii_alphabetic();
    match word.strip_prefix("--") {
        Some(name) => name.starts_with(letter),
        None => word.len() == 2 && word.starts_with('-') && word.ends_with(letter),
    }
}

fn options() -> Vec<&'static str> {
    words(HELP)
        .into_iter()
        .filter(|word| is_option(word))
        .collect()
}

fn commands() -> Vec<&'static str> {
    let lines = HELP
        .lines()
        .filter_map(|line| line.strip_prefix("    preset "));
    let first = lines.filter_map(|line| line.split(' ').next());
    first.filter(|word| !word.starts_with('-')).collect()
}

#[test]
fn what_the_help_names_is_in_the_man_page_and_in_each_completion() {
    assert_eq!(commands(), ["check", "plan", "listing", "map", "explain"]);
    assert!(options().len() >= 4, "{:?}", options());
    let man = MAN.replace("\\-", "-").replace("\\~", " ");
    // fish has its own way to say --name and -n
    let fish = FISH.replace(" -l ", " --").replace(" -s ", " -");
    let texts = [
        ("man", man.as_str()),
        ("bash", BASH),
        ("zsh", ZSH),
        ("fish", &fish),
    ];
    for (name, text) in texts {
        let known = words(text);
        for word in commands().into_iter().chain(options()) {
            assert!(known.contains(word), "{name} does not know {word}");
        }
    }
}

// The longest run of numbers in a text.
fn numbers(text: &str) -> Vec<u32> {
    let apart = |c: char| c.is_ascii_whitespace() || "\"'()\\".contains(c);
    let all = text.split(apart).filter(|word| !word.is_empty());
    let all: Vec<Option<u32>> = all.map(|word| word.parse().ok()).collect();
    let runs = all.split(Option::is_none);
    let longest = runs.max_by_key(|run| run.len()).unwrap_or_default();
    longest.iter().copied().flatten().collect()
}

#[test]
fn completions_know_every_refusal() {
    let heads = PAPER.lines().filter_map(|line| line.strip_prefix("## "));
    let heads = heads.filter_map(|head| head.split_once(": ")?.0.parse().ok());
    let want: Vec<u32> = heads.collect();
    assert!(want.len() > 50, "{want:?}");
    for (name, text) in [("bash", BASH), ("zsh", ZSH), ("fish", FISH)] {
        assert_eq!(numbers(text), want, "{name}");
    }
}

// Nothing where there is no such program.
fn told(program: &str, words: &[&str]) -> Option<Output> {
    let mut command = Command::new(program);
    let presets = Path::new(env!("CARGO_MANIFEST_DIR")).join("../../presets");
    command
        .args(words)
        .current_dir(presets)
        .stdin(Stdio::null());
    command.output().ok()
}

// What bash offers for the last of these words.
fn offered(line: &[&str]) -> BTreeSet<String> {
    let ask = "source \"$0\"; COMP_WORDS=(\"$@\"); COMP_CWORD=$(($# - 1)); _preset; printf '%s\\n' \"${COMPREPLY[@]}\"";
    let script = share("preset.bash");
    let script = script.to_str().expect("a plain path");
    let words = [&["--norc", "-c", ask, script, "preset"], line].concat();
    let told = told("bash", &words).expect("bash");
    assert_eq!(String::from_utf8_lossy(&told.stderr), "");
    let out = String::from_utf8(told.stdout).expect("UTF-8");
    out.lines()
        .filter(|word| !word.is_empty())
        .map(String::from)
        .collect()
}

#[test]
fn bash_offers_what_may_stand_there() {
    let has = |line: &[&str], want: &[&str]| {
        let want: BTreeSet<String> = want.iter().map(|word| word.to_string()).collect();
        assert_eq!(offered(line), want, "{line:?}");
    };
    has(&["c"], &["check"]);
    has(&["e"], &["explain"]);
    has(&["--v"], &["--version"]);
    let presets = [
        "calib-d13x.toml",
        "example.toml",
        "stage-d13x.toml",
        "tour-d21x.toml",
    ];
    for command in ["check", "plan", "listing", "map"] {
        has(&[command, ""], &presets);
    }
    has(&["check", "a.toml", "st"], &["stage-d13x.toml"]);
    has(&["check", "../doc"], &["../docs"]);
    has(&["check", "--d"], &["--deny"]);
    has(&["check", "--deny", ""], &["notes"]);
    has(&["check", "--deny", "="], &["notes"]);
    has(&["check", "--deny", "=", "no"], &["notes"]);
    has(&["plan", "a.toml", "--app", ""], &[]);
    has(&["map", "a.toml", "--s"], &["--svg"]);
    has(&["map", "a.toml", "--svg", "../READ"], &["../README.md"]);
    has(
        &["map", "a.toml", "--svg", "=", "../READ"],
        &["../README.md"],
    );
    has(&["explain", "8"], &["8", "80", "81"]);
    has(&["explain", "8", ""], &[]);
    has(&["other", ""], &[]);
}

// Those shells, and the formatter of man pages, are asked where they are installed.
#[test]
fn the_other_files_are_well_formed() {
    let checks = [
        ("zsh", &["-n"][..], "_preset"),
        ("fish", &["-n"], "preset.fish"),
        ("groff", &["-man", "-Tutf8", "-ww", "-z"], "preset.1"),
        ("mandoc", &["-Tlint", "-Werror"], "preset.1"),
    ];
    for (program, words, file) in checks {
        let file = share(file);
        let words = [words, &[file.to_str().expect("a plain path")]].concat();
        let Some(told) = told(program, &words) else {
            println!("{program} is not installed");
            continue;
        };
        assert!(told.status.success(), "{program}: {told:?}");
        assert_eq!(String::from_utf8_lossy(&told.stderr), "", "{program}");
    }
}
