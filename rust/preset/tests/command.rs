//! The built command through all of its answers: what it prints where, and its exit status.
use std::fs;
use std::io::Write;
use std::path::{Path, PathBuf};
use std::process::{Command, Stdio};

const EXAMPLE: &str = include_str!("../../../presets/example.toml");
const STAGE: &str = include_str!("../../../presets/stage-d13x.toml");
const CALIB: &str = include_str!("../../../presets/calib-d13x.toml");

#[derive(Debug, PartialEq, Eq)]
struct Said {
    status: i32,
    out: String,
    err: String,
}

// The command where the repository's root is the folder; elsewhere than on x86-64 `rust/cross` names an emulator.
fn command(words: &[&str]) -> Command {
    let program = env!("CARGO_BIN_EXE_preset");
    let mut command = match std::env::var("CARGO_TARGET_X86_64_UNKNOWN_LINUX_GNU_RUNNER") {
        Ok(runner) => {
            let mut command = Command::new(runner);
            command.arg(program);
            command
        }
        Err(_) => Command::new(program),
    };
    let root = Path::new(env!("CARGO_MANIFEST_DIR")).join("../..");
    command.args(words).current_dir(root).stdin(Stdio::null());
    command.env("PRESET_CALLED", "preset");
    command
}

fn said(mut command: Command, input: &[u8]) -> Said {
    command.stdin(Stdio::piped());
    command.stdout(Stdio::piped()).stderr(Stdio::piped());
    let mut child = command.spawn().expect("it starts");
    // who does not read its input may be gone by now
    let _ = child.stdin.take().expect("an input").write_all(input);
    let told = child.wait_with_output().expect("it ends");
    Said {
        status: told.status.code().expect("a status"),
        out: String::from_utf8(told.stdout).expect("UTF-8"),
        err: String::from_utf8(told.stderr).expect("UTF-8"),
    }
}

fn preset(words: &[&str]) -> Said {
    said(command(words), b"")
}

fn accepted(out: impl Into<String>) -> Said {
    Said {
        status: 0,
        out: out.into(),
        err: String::new(),
    }
}

fn advice(number: u32) -> String {
    format!("what it means and how it is mended: preset explain {number}\n")
}

// A file below target/, in a folder of the test that writes it.
fn written(test: &str, name: &str, text: impl AsRef<[u8]>) -> PathBuf {
    let folder = Path::new(env!("CARGO_TARGET_TMPDIR")).join(test);
    fs::create_dir_all(&folder).expect("target/ can be written");
    let file = folder.join(name);
    fs::write(&file, text).expect("target/ can be written");
    file
}

fn word(file: &Path) -> &str {
    file.to_str().expect("a plain path")
}

// The first line of a text that has this in it, from 1, as editors count.
fn line(text: &str, part: &str) -> usize {
    let found = text.lines().position(|line| line.contains(part));
    1 + found.unwrap_or_else(|| panic!("{part} is nowhere"))
}

#[test]
fn check_accepts() {
    let words = ["check", "presets/example.toml", "presets/stage-d13x.toml"];
    let lines = "presets/example.toml: ok: d13x, spi-nor, 2 partitions, 1 component, 1 application\n\
                 presets/stage-d13x.toml: ok: d13x, spi-nor, 6 partitions, 4 components, 7 applications\n";
    let want = Said {
        err: "2 files: 2 ok\n".into(),
        ..accepted(lines)
    };
    assert_eq!(preset(&words), want);
}

#[test]
fn check_takes_standard_input() {
    let got = said(command(&["check", "-"]), EXAMPLE.as_bytes());
    let line = "-: ok: d13x, spi-nor, 2 partitions, 1 component, 1 application\n";
    assert_eq!(got, accepted(line));
    let got = said(command(&["check", "-"]), b"[board]\nchip = d13x\n");
    assert_eq!(got.status, 1);
    assert_eq!(
        got.out,
        "-:2: refused 12: not an integer: `chip` wants text in double quotes: \"d13x\"\n    chip = d13x\n"
    );
    assert_eq!(got.err, advice(12));
}

// A preset's edit, the line that is to be named, and what is said of it.
const FAULTS: [(&str, &str, &str, &str); 12] = [
    (
        "size   = 0x040000",
        "size   = 256K",
        "size   = 256K",
        "refused 12: not an integer: `size` wants a number: 256 KiB is 262144 or 0x40000",
    ),
    (
        "chip    = \"d13x\"",
        "chip    = 13",
        "chip    = 13",
        "board: refused 20: wrong kind of value: `chip` is an integer; \
         it wants text in double quotes: \"d13x\" or \"d21x\"",
    ),
    (
        "media        = \"spi-nor\"",
        "media        = \"nor\"",
        "media        = \"nor\"",
        "image: refused 22: unknown chip, media or kind: `media` is \"nor\" (\"spi-nor\"?); there are spi-nor, spi-nand",
    ),
    (
        "offset = 0x042000",
        "",
        "[[partition]]",
        "partition 2 \"calibration\": refused 24: missing name, offset or size: no `offset`",
    ),
    (
        "name   = \"env\"",
        "name   = \"boot\"",
        "name   = \"boot\"",
        "partition 1 \"boot\": refused 43: duplicate partition name \"boot\", the name of partition 0",
    ),
    (
        "size   = 0x00E000",
        "size   = 0x00E010",
        "size   = 0x00E010",
        "partition 2 \"calibration\": refused 46: size off the erase block: \
         `size` is 0x00E010; the erase block of spi-nor is 0x1000, so 0xE000 or 0xF000 fits",
    ),
    (
        "offset = 0x550000",
        "offset = 0x54F000",
        "offset = 0x54F000",
        "partition 4 \"gobos\": refused 47: partition starts before the previous end: \
         it starts at 0x54F000, partition 3 \"profiles\" ends at 0x550000",
    ),
    (
        "partition = \" gobos ;mtd\"",
        "partition = \" gobo ;mtd\"",
        "partition = \" gobo ;mtd\"",
        "component 3 \"gobo wheels\": refused 58: unknown partition \"gobo\" (\"gobos\"?); \
         there are boot, env, calibration, profiles, gobos, logs",
    ),
    (
        "ram          = 0x3004_3000",
        "",
        "updater      = true",
        "component 0 \"psram\": refused 56: updater without ram",
    ),
    (
        "file      = \"blobs/env.bin\"",
        "",
        "[[component]]",
        "component 2 \"env\": refused 54: neither package nor file",
    ),
    (
        "name         = \"washes\"",
        "name         = \"spots\"",
        "name         = \"spots\"",
        "application 6 \"profile-wash\": refused 65: duplicate application name \"spots\", \
         the name of application 4 \"profile-spot\"",
    ),
    (
        "partition = \"logs\"",
        "partition = \"log\"",
        "partition = \"log\"",
        "application 0 \"lamp-log\": refused 64: unknown partition of an application: \"log\" (\"logs\"?); \
         there are boot, env, calibration, profiles, gobos, logs",
    ),
];

// The line that an edit's fault is told at: the edited one, or where it took something away, the nearest above that is
// meant.
fn line_told(text: &str, edited: usize, meant: &str) -> usize {
    let above = text.lines().take(edited).enumerate();
    let found = above.filter(|(_, line)| line.contains(meant)).last();
    1 + found.expect("a line that is meant").0
}

#[test]
fn check_leads_to_the_fault() {
    let mut words = vec!["check".to_string()];
    let mut want = String::new();
    for (i, (from, to, meant, what)) in FAULTS.into_iter().enumerate() {
        let text = STAGE.replacen(from, to, 1);
        assert_ne!(text, STAGE, "{from}");
        let file = written("faults", &format!("stage-{i}.toml"), &text);
        let at = line_told(&text, line(STAGE, from), meant);
        let shown = text.lines().nth(at - 1).expect("a line").trim_start();
        want += &format!("{}:{at}: {what}\n    {shown}\n", word(&file));
        words.push(word(&file).into());
    }
    let words: Vec<&str> = words.iter().map(String::as_str).collect();
    let got = preset(&words);
    assert_eq!(got.out, want);
    assert_eq!(got.status, 1);
    let explained = [12, 20, 22, 24, 43, 46, 47, 54, 56, 58, 64, 65];
    let explained = explained.map(|n| format!("preset explain {n}")).join(", ");
    let advice = format!("what it means and how it is mended: {explained}\n");
    assert_eq!(got.err, format!("{advice}12 files: 12 refused\n"));
}

// An application in a locked partition, told as any other refusal by each command.
#[test]
fn locked_partitions_are_told() {
    let file = "presets/calib-d13x.toml";
    let ok = format!("{file}: ok: d13x, spi-nor, 6 partitions, 3 components, 3 applications\n");
    assert_eq!(preset(&["check", "--deny", "notes", file]), accepted(ok));
    let text = CALIB.replace("\"trims\"\nfeatures", "\"calib\"\nfeatures");
    let moved = written("locked", "moved.toml", &text);
    let at = line_told(&text, text.lines().count(), "partition    = \"calib\"");
    let told = format!(
        "{}:{at}: application 2 \"trim-editor\": refused 67: partition \"calib\" is locked; \
         open are boot, env, profiles, trims, logs\n    partition    = \"calib\"\n",
        word(&moved)
    );
    let got = preset(&["check", word(&moved)]);
    assert_eq!(
        (got.status, got.out, got.err),
        (1, told.clone(), advice(67))
    );
    for order in ["plan", "listing"] {
        let got = preset(&[order, word(&moved)]);
        assert_eq!((got.status, got.out.as_str()), (1, ""), "{order}");
        assert_eq!(got.err, format!("{told}{}", advice(67)), "{order}");
    }
    let got = preset(&["map", word(&moved)]);
    let drawn = "!! calib         0x042000  0x080000  248 KiB  [  !!                            ]\n                 \
                 locked: takes no application\n";
    assert!(got.out.contains(drawn), "{}", got.out);
}

// What is told of a line that nobody can guess.
const LINE: &str = "a line is a header in brackets, key = value, or a remark after `#`";

// The worst counts, each file has its line, and only what cannot be read is told beside them.
#[test]
fn check_goes_on() {
    let bad = written("mixed", "bad.toml", "x\n");
    let (good, gone) = ("presets/example.toml", "presets/none.toml");
    let refused = format!(
        "{0}:1: refused 5: neither a header nor an assignment: {LINE}\n    x\n",
        word(&bad)
    );
    let ok = preset(&["check", good]).out;
    let got = preset(&["check", word(&bad), gone, good]);
    assert_eq!((got.status, got.out), (2, format!("{refused}{ok}")));
    let missing = "preset: presets/none.toml: cannot be read: there is no such file";
    assert!(got.err.starts_with(missing), "{}", got.err);
    let last = advice(5) + "3 files: 1 ok, 1 refused, 1 not read\n";
    assert!(got.err.ends_with(&last), "{}", got.err);
    let got = preset(&["check", good, word(&bad)]);
    assert_eq!((got.status, got.out), (1, format!("{ok}{refused}")));
}

// Unknown keys are noted beside the results, which stay as they are, and so does the status.
#[test]
fn check_notes_unknown_keys() {
    let text = EXAMPLE
        .replace("package =", "pakage = \"x\"\npackage =")
        .replace("[apps", "[[componet]]\n[apps");
    assert_eq!(preset(&["check", "presets/example.toml"]).err, "");
    let file = written("notes", "slips.toml", &text);
    let (pakage, componet) = (line(&text, "pakage"), line(&text, "componet"));
    let got = preset(&["check", word(&file)]);
    let file = word(&file);
    let ok = "ok: d13x, spi-nor, 2 partitions, 1 component, 1 application";
    let notes = format!(
        "{file}:{pakage}: note: component 0 \"first\": unknown key \"pakage\" is passed over (package?)\n\
         {file}:{componet}: note: unknown key \"componet\" is passed over (component?)\n"
    );
    let want = Said {
        status: 0,
        out: format!("{file}: {ok}\n"),
        err: notes,
    };
    assert_eq!(got, want);
    for order in ["plan", "listing", "map"] {
        assert_eq!(preset(&[order, file]).err, "", "{order}");
    }
}

#[test]
fn check_notes_what_refused_presets_have() {
    let text = EXAMPLE.replace("partition = \"boot;mtd\"", "partiton = \"boot;mtd\"");
    let got = said(command(&["check", "-"]), text.as_bytes());
    let refused =
        "-:11: component 0 \"first\": refused 57: no partition and no updater\n    [[component]]\n";
    let note =
        "-:15: note: component 0 \"first\": unknown key \"partiton\" is passed over (partition?)\n";
    assert_eq!((got.status, got.out.as_str()), (1, refused));
    assert_eq!(got.err, format!("{note}{}", advice(57)));
    let got = said(command(&["check", "-"]), b"x = 1\ny\n");
    assert_eq!((got.status, got.err), (1, advice(5)));
}

// Ten of a file, and how many more; what is printed of them is escaped.
#[test]
fn check_notes_no_more_than_ten() {
    let noted = |keys: usize| {
        let own: String = (0..keys).map(|n| format!("\"\u{1b}{n}\" = 1\n")).collect();
        let got = said(command(&["check", "-"]), (own + EXAMPLE).as_bytes());
        assert_eq!(got.status, 0);
        got.err.lines().map(String::from).collect::<Vec<_>>()
    };
    let note = |n| {
        format!(
            "-:{}: note: unknown key \"\\u{{1b}}{n}\" is passed over",
            n + 1
        )
    };
    let ten: Vec<String> = (0..10).map(note).collect();
    assert_eq!(noted(10), ten);
    let more = |last: &str| [ten.clone(), vec![last.to_string()]].concat();
    assert_eq!(noted(11), more("-: note: 1 more key is passed over"));
    assert_eq!(
        noted(1_900),
        more("-: note: 1890 more keys are passed over")
    );
}

// Whoever sees both outputs sees the notes of a file after its line and before the next file's.
#[test]
fn check_notes_after_each_file() {
    let slip = |name| written("after", name, format!("nmae = 1\n{EXAMPLE}"));
    let (one, two) = (slip("one.toml"), slip("two.toml"));
    let bad = written("after", "bad.toml", "x\n");
    let runner = std::env::var("CARGO_TARGET_X86_64_UNKNOWN_LINUX_GNU_RUNNER");
    let program = env!("CARGO_BIN_EXE_preset");
    let files = [&one, &bad, &two].map(|file| word(file)).join(" ");
    let mut shell = Command::new("sh");
    let call = format!(
        "{} {program} check {files} 2>&1",
        runner.unwrap_or_default()
    );
    shell.args(["-c", &call]).env("PRESET_CALLED", "preset");
    let got = said(shell, b"");
    let ok = "ok: d13x, spi-nor, 2 partitions, 1 component, 1 application";
    let noted =
        |file: &str| format!("{file}: {ok}\n{file}:1: note: unknown key \"nmae\" is passed over\n");
    let want = format!(
        "{}{}:1: refused 5: neither a header nor an assignment: {LINE}\n    x\n{}{}3 files: 2 ok, 1 refused; 2 notes\n",
        noted(word(&one)),
        word(&bad),
        noted(word(&two)),
        advice(5)
    );
    assert_eq!((got.status, got.out), (1, want));
}

// Whoever denies notes has them as failures; the lines of what is accepted stay, and the worst status counts.
#[test]
fn check_denies_notes() {
    let slip = written("denied", "slip.toml", format!("nmae = 1\n{EXAMPLE}"));
    let (slip, good) = (word(&slip), "presets/example.toml");
    let note = format!("{slip}:1: note: unknown key \"nmae\" is passed over\n");
    let asked = |words: &[&str]| preset(&[&["check", "--deny", "notes"], words].concat());
    let ok = |file| preset(&["check", file]).out;
    assert_eq!(asked(&[good]), accepted(ok(good)));
    let got = asked(&[slip]);
    assert_eq!((got.status, got.out, got.err), (1, ok(slip), note.clone()));
    let got = asked(&[good, slip]);
    assert_eq!((got.status, got.out), (1, ok(good) + &ok(slip)));
    assert_eq!(got.err, format!("{note}2 files: 2 ok; 1 note\n"));
    let got = asked(&[slip, "presets/none.toml"]);
    assert_eq!(got.status, 2);
    assert!(
        got.err.ends_with("2 files: 1 ok, 1 not read; 1 note\n"),
        "{}",
        got.err
    );
}

// Nothing is said of what is accepted; refusals, and notes that are denied, are told all the same.
#[test]
fn check_is_quiet() {
    let slip = written("quiet", "slip.toml", format!("nmae = 1\n{EXAMPLE}"));
    let bad = written("quiet", "bad.toml", "x = 1\nx = 2\n[board]\nchip = 1\n");
    let (slip, bad, good) = (word(&slip), word(&bad), "presets/example.toml");
    for quiet in ["-q", "--quiet"] {
        assert_eq!(preset(&["check", quiet, good, slip]), accepted(""));
    }
    let refused = preset(&["check", bad]);
    let got = preset(&["check", good, "-q", bad, slip]);
    assert_eq!((got.status, got.out), (1, refused.out.clone()));
    assert_eq!(got.err, advice(20));
    let got = preset(&["check", "-q", good, slip, bad, "--deny=notes"]);
    let notes = format!(
        "{slip}:1: note: unknown key \"nmae\" is passed over\n\
         {bad}:2: note: unknown key \"x\" is passed over\n"
    );
    assert_eq!((got.status, got.out), (1, refused.out));
    assert_eq!(got.err, notes + &advice(20));
    let got = preset(&["check", "-q", good, "presets/none.toml"]);
    assert_eq!((got.status, got.out.as_str()), (2, ""));
    assert_eq!(got.err.lines().count(), 1, "{}", got.err);
}

// Faults of the whole text have no line but for bytes that are no text.
#[test]
fn texts_that_are_none() {
    let long = written("none", "long.toml", "#".repeat(32_769));
    let got = preset(&["check", word(&long), "/dev/zero"]);
    let too_long = "refused 1: text too long: more than 32768 bytes\n";
    let lines = format!("{}: {too_long}/dev/zero: {too_long}", word(&long));
    assert_eq!((got.status, got.out), (1, lines));
    let full = written("none", "full.toml", "#".repeat(32_768));
    let latin = written("none", "latin.toml", b"[board]\nname = \"caf\xe9\"\n");
    let got = preset(&["check", word(&full), word(&latin)]);
    let lines = format!(
        "{}: partitions: refused 40: no partitions\n\
         {}:2: refused 2: not UTF-8: byte 0xE9, in Latin-1 `é`; save the file as UTF-8\n    name = \"caf\\xe9\"\n",
        word(&full),
        word(&latin)
    );
    assert_eq!((got.status, got.out), (1, lines));
}

#[test]
fn what_cannot_be_read() {
    let whys = [
        ("presets", "cannot be read: it is a directory\n"),
        ("presets/none.toml", "cannot be read: there is no such file"),
        (
            "presets/example.toml/x",
            "cannot be read: a part of its path is no directory\n",
        ),
    ];
    for (file, why) in whys {
        for order in ["check", "plan", "listing", "map"] {
            let got = preset(&[order, file]);
            assert_eq!((got.status, got.out.as_str()), (2, ""), "{order} {file}");
            let want = format!("preset: {file}: {why}");
            assert!(got.err.starts_with(&want), "{}", got.err);
        }
    }
}

// An editor finds the file by what is told, however long its path is; one without letters is seen.
#[test]
fn files_are_named_whole() {
    let deep = ["a-folder-with-a-long-name"; 9].join("/");
    let folder = written("named", "none", "").with_file_name(deep);
    fs::create_dir_all(&folder).expect("target/ can be written");
    let file = folder.join("bad.toml");
    fs::write(&file, "x\n").expect("target/ can be written");
    let got = preset(&["check", word(&file)]);
    let place = format!("{}:1: refused 5: ", word(&file));
    assert!(got.out.starts_with(&place), "{}", got.out);
    let got = preset(&["check", ""]);
    let why = "preset: \"\": cannot be read: there is no such file\n";
    assert_eq!((got.status, got.err.as_str()), (2, why));
}

#[test]
fn bad_usage() {
    let calls: [&[&str]; 12] = [
        &[],
        &["chek", "x"],
        &["check"],
        &["check", "--app", "desk", "presets/example.toml"],
        &["check", "--deny", "presets/example.toml"],
        &["check", "presets/example.toml", "--deny", "keys"],
        &["plan", "presets/example.toml", "-q"],
        &["plan", "presets/example.toml", "presets/tour-d21x.toml"],
        &["plan", "presets/example.toml", "--app"],
        &["listing"],
        &["map", "--svg", "out.svg"],
        &["explain"],
    ];
    for words in calls {
        let got = preset(words);
        assert_eq!((got.status, got.out.as_str()), (2, ""), "{words:?}");
        assert!(got.err.starts_with("preset: "), "{words:?}: {}", got.err);
        assert!(got.err.ends_with("preset --help says how it is called\n"));
    }
}

#[test]
fn help_and_version() {
    let help = preset(&["--help"]);
    assert_eq!((help.status, help.err.as_str()), (0, ""));
    let orders = ["check", "plan", "listing", "map", "explain"];
    let orders = orders.map(|order| format!("preset {order} "));
    let options = ["--app KEY", "--svg OUT", "--deny notes", "--quiet", "-q"].map(String::from);
    for word in orders.into_iter().chain(options) {
        assert!(help.out.contains(&word), "{word}");
    }
    assert_eq!(preset(&["map", "--help"]), help);
    assert!(help.out.lines().all(|line| line.len() < 80));
    assert_eq!(preset(&["--version"]), accepted("preset 0.3.0\n"));
}

const BOARD: &str =
    "board \"example\": d13x, spi-nor, target riscv32imafc-unknown-none-elf, profile release\n";
const FIRST: &str =
    "\"first\": app, into \"boot\" at 0x0 (size 0x40000), from package \"loader\"\n";

#[test]
fn plans() {
    let got = preset(&["plan", "presets/example.toml"]);
    let chain = format!("{BOARD}component 0 {FIRST}build \"loader\"\nstem \"loader\"\n");
    assert_eq!(got, accepted(chain));
    let got = preset(&["plan", "presets/example.toml", "--app", "desk"]);
    let desk = format!(
        "{BOARD}component 0 \"desk\": app, into \"profiles\" at 0x40000 (size 0x100000), from package \"desk\"\n\
         component 1 {FIRST}build \"loader\"\nbuild \"desk\", features pan tilt\nstem \"desk\"\n"
    );
    assert_eq!(got, accepted(desk));
    let got = preset(&["plan", "presets/stage-d13x.toml"]);
    let psram = "component 0 \"psram\": pbp, updater at 0x30043000, from package \"pbp-psram\"\n";
    assert!(got.out.contains(psram), "{}", got.out);
    assert!(
        got.out.contains("from file \"blobs/env.bin\"\n"),
        "{}",
        got.out
    );
    assert!(
        got.out.contains(", pbp from package \"pbp-common\"\n"),
        "{}",
        got.out
    );
}

// Plans that are refused: nothing goes to standard output.
#[test]
fn plans_refused() {
    let refused = |words: &[&str], told: String, number| {
        let got = preset(words);
        let err = told + &advice(number);
        let want = Said {
            status: 1,
            out: String::new(),
            err,
        };
        assert_eq!(got, want);
    };
    let words = ["plan", "presets/example.toml", "--app", "lamp"];
    let what = "applications: refused 80: application not declared: \"lamp\"; declared: desk";
    refused(&words, format!("presets/example.toml: {what}\n"), 80);
    let text = EXAMPLE.replace("[apps.desk]", "[apps.desk]\nname = \"first\"");
    let file = written("plans", "twice.toml", &text);
    let at = 1 + line(&text, "[apps.desk]");
    let what = "application 0 \"desk\": refused 81: application named like a component: \
                \"first\", the name of component 0";
    let told = format!("{}:{at}: {what}\n    name = \"first\"\n", word(&file));
    refused(&["plan", word(&file), "--app=desk"], told, 81);
    assert_eq!(preset(&["plan", word(&file)]).status, 0);
    let file = written("plans", "open.toml", "a = [1,\n");
    let told = format!(
        "{}:1: refused 4: bracket or quote never closed: a list ends with `]`\n    a = [1,\n",
        word(&file)
    );
    refused(&["plan", word(&file)], told.clone(), 4);
    refused(&["listing", word(&file)], told.clone(), 4);
    refused(&["map", word(&file)], told, 4);
}

// The board's name is the file's stem where the text has none.
#[test]
fn boards_are_named_by_their_files() {
    let file = written("named", "my.desk.toml", EXAMPLE);
    let got = preset(&["plan", word(&file)]);
    assert!(
        got.out.starts_with("board \"my.desk\": d13x"),
        "{}",
        got.out
    );
    let got = said(command(&["plan", "-"]), EXAMPLE.as_bytes());
    assert!(got.out.starts_with("board \"board\": d13x"), "{}", got.out);
}

// What the program `listing` prints of 01's example.
#[test]
fn listings() {
    let (input, lines) = (
        include_str!("../../../crates/listing/stdin"),
        include_str!("../../../crates/listing/stdout"),
    );
    let got = said(command(&["listing", "-"]), input.as_bytes());
    assert_eq!(got, accepted(lines));
    assert_eq!(
        preset(&["listing", "presets/example.toml"]),
        accepted(lines)
    );
}

#[test]
fn explanations() {
    let got = preset(&["explain", "58"]);
    assert_eq!((got.status, got.err.as_str()), (0, ""));
    assert!(
        got.out.starts_with("58: unknown partition\n"),
        "{}",
        got.out
    );
    assert!(got.out.contains("\nMend: "), "{}", got.out);
    for number in ["99", "0", "x", "-1", "58 "] {
        let got = preset(&["explain", "--", number]);
        assert_eq!((got.status, got.out.as_str()), (2, ""), "{number}");
        let why = format!("preset: no refusal has the number \"{number}\"; there are 1 2 3 ");
        assert!(got.err.starts_with(&why), "{}", got.err);
    }
}

#[test]
fn maps() {
    let got = preset(&["map", "presets/stage-d13x.toml", "--app", "profile-spot"]);
    assert_eq!((got.status, got.err.as_str()), (0, ""));
    for part in [
        "stage-d13x",
        "calibration",
        "gobo wheels",
        "profile-spot",
        "profile-wash",
    ] {
        assert!(got.out.contains(part), "{part} in {}", got.out);
    }
    let drawn = preset(&["map", "presets/stage-d13x.toml", "--svg", "-"]);
    assert_eq!((drawn.status, drawn.err.as_str()), (0, ""));
    assert!(drawn.out.starts_with("<svg") || drawn.out.starts_with("<?xml"));
    let file = written("maps", "stage.svg", "");
    let got = preset(&["map", "presets/stage-d13x.toml", "--svg", word(&file)]);
    assert_eq!(got, accepted(""));
    assert_eq!(fs::read_to_string(&file).expect("a drawing"), drawn.out);
    let got = preset(&["map", "presets/stage-d13x.toml", "--svg", "presets"]);
    assert_eq!((got.status, got.out.as_str()), (2, ""));
    assert!(
        got.err.starts_with("preset: presets: cannot be written: "),
        "{}",
        got.err
    );
}

#[test]
fn maps_of_locked_partitions() {
    let got = preset(&["map", "presets/calib-d13x.toml", "--app", "follow-spot"]);
    let map = "\
calib-d13x: d13x, spi-nor
follow spot 1.2.0, with application follow-spot

   name          start     end          size   0                          4 MiB
   boot          0x000000  0x040000  256 KiB  [##                              ]
                 component: loader
   env           0x040000  0x042000    8 KiB  [  #                             ]
                 component: env
   calib         0x042000  0x080000  248 KiB  [  LL                            ]
                 locked: takes no application
                 component: factory calibration
   profiles      0x080000  0x280000    2 MiB  [    ################            ]
                 chosen application: follow-spot
   trims         0x280000  0x380000    1 MiB  [                    ########    ]
                 application: trim-editor
   (unassigned)  0x380000  0x3C0000  256 KiB  [                            ..  ]
   logs          0x3C0000  0x400000  256 KiB  [                              ##]
                 application: lamp-log
";
    assert_eq!(got, accepted(map));
    let drawn = preset(&["map", "presets/calib-d13x.toml", "--svg", "-"]);
    assert_eq!((drawn.status, drawn.err.as_str()), (0, ""));
    assert_eq!(
        drawn
            .out
            .matches(">locked: takes no application</text>")
            .count(),
        1
    );
    // also where records are not whole, as far as locks can be read
    let text = CALIB.replace("chip = \"d13x\"", "chip = 13");
    let file = written("maps", "locked.toml", text);
    let got = preset(&["map", word(&file)]);
    assert_eq!(got.status, 1);
    assert_eq!(got.out.matches("locked: takes no application").count(), 1);
}

// Neither by its own path nor by a link, and not where standard input is the file.
#[test]
fn maps_do_not_overwrite_presets() {
    let file = written("own", "own.toml", EXAMPLE);
    let [hard, soft] = ["hard.toml", "soft.toml"].map(|name| file.with_file_name(name));
    // those of an earlier run, if any
    let _ = (fs::remove_file(&hard), fs::remove_file(&soft));
    fs::hard_link(&file, &hard).expect("target/ takes links");
    std::os::unix::fs::symlink(&file, &soft).expect("target/ takes links");
    let why = ": is the preset itself, and is not overwritten\n";
    for out in [&file, &hard, &soft] {
        for from in [word(&file), "-"] {
            let mut command = command(&["map", from, "--svg", word(out)]);
            command.stdin(fs::File::open(&file).expect("it"));
            let told = command.output().expect("it ends");
            assert_eq!(told.status.code(), Some(2));
            let err = String::from_utf8(told.stderr).expect("UTF-8");
            assert!(err.ends_with(why), "{err}");
            assert_eq!(fs::read_to_string(&file).expect("it"), EXAMPLE);
        }
    }
    // `rt ci` wants no link anywhere in the repository
    fs::remove_file(&soft).expect("it is the test's own");
}

// The refusal beside the map, and the map wherever partitions can be read.
#[test]
fn maps_of_refused_presets() {
    let overlap = STAGE.replace("offset = 0x550000", "offset = 0x54F000");
    let wrong_kind = STAGE.replace("kind         = \"pbp\"", "kind         = \"bpb\"");
    for (i, (text, number)) in [(overlap, 47), (wrong_kind, 22)].into_iter().enumerate() {
        let file = written("marked", &format!("{i}.toml"), text);
        let got = preset(&["map", word(&file)]);
        assert_eq!(got.status, 1);
        assert!(
            got.err.contains(&format!("refused {number}: ")),
            "{}",
            got.err
        );
        assert!(got.out.contains("calibration"), "{}", got.out);
        assert!(
            got.out.contains(&format!("refused {number}: ")),
            "{}",
            got.out
        );
    }
    let none = written("marked", "none.toml", "[board]\nchip = 1\n");
    let got = preset(&["map", word(&none)]);
    assert_eq!((got.status, got.out.as_str()), (1, ""));
    let got = preset(&["map", "presets/example.toml", "--app", "lamp"]);
    assert_eq!(got.status, 1);
    assert!(got.err.contains("refused 80: "), "{}", got.err);
}

// Names and lines of a preset cannot play with the terminal.
#[test]
fn what_is_printed_is_escaped() {
    let text = EXAMPLE.replace("boot;mtd", "\u{1b}[2J\u{202e}");
    let got = said(command(&["check", "-"]), text.as_bytes());
    let plain = "\\u{1b}[2J\\u{202e}";
    let want = format!(
        "-:15: component 0 \"first\": refused 58: unknown partition \"{plain}\"; there are boot, profiles\n    \
         partition = \"{plain}\"\n"
    );
    assert_eq!((got.status, got.out), (1, want));
    for order in ["plan", "map", "check"] {
        let text = EXAMPLE
            .replace("\"boot", "\"\u{7}boot")
            .replace("desk", "\"de\u{8}sk\"");
        let got = said(command(&[order, "-"]), text.as_bytes());
        assert_eq!(got.status, 0, "{}", got.err);
        let played = |c: char| c.is_control() && c != '\n';
        assert!(!got.out.contains(played), "{order}: {:?}", got.out);
    }
}

// Who reads the results may stop; who cannot take them is told.
#[test]
fn where_results_go() {
    let mut command = command(&["listing", "presets/example.toml"]);
    command.stdout(Stdio::piped()).stderr(Stdio::piped());
    let mut child = command.spawn().expect("it starts");
    drop(child.stdout.take());
    let told = child.wait_with_output().expect("it ends");
    assert_eq!((told.status.code(), told.stderr), (Some(0), Vec::new()));
    let full = fs::OpenOptions::new().write(true).open("/dev/full");
    let mut command = self::command(&["listing", "presets/example.toml"]);
    command
        .stdout(full.expect("a full device"))
        .stderr(Stdio::piped());
    let told = command.output().expect("it ends");
    assert_eq!(told.status.code(), Some(2));
    assert!(
        told.stderr
            .starts_with(b"preset: standard output cannot be written: no space is left\n")
    );
}

// The README's terminal: its commands in a shell print what it shows.
#[test]
fn the_readme_is_true() {
    let readme = include_str!("../../../README.md").lines();
    let block: Vec<Option<&str>> = readme.map(|line| line.strip_prefix("    ")).collect();
    let blocks = block.split(|line| line.is_none());
    let shell = |block: &&[Option<&str>]| block.iter().flatten().any(|line| line.starts_with("$ "));
    let shown: Vec<&str> = blocks
        .filter(shell)
        .flatten()
        .filter_map(|line| *line)
        .collect();
    let folder = written("readme", "none", "").with_file_name("presets");
    fs::create_dir_all(&folder).expect("target/ can be written");
    fs::write(folder.join("example.toml"), EXAMPLE).expect("target/ can be written");
    let runner = std::env::var("CARGO_TARGET_X86_64_UNKNOWN_LINUX_GNU_RUNNER");
    let program = format!(
        "{} {}",
        runner.unwrap_or_default(),
        env!("CARGO_BIN_EXE_preset")
    );
    let mut got = Vec::new();
    for line in shown.iter().filter_map(|line| line.strip_prefix("$ ")) {
        let mut shell = Command::new("sh");
        let own = line.replace("./preset", "$PROGRAM");
        shell.args(["-c", &format!("exec 2>&1; {own}")]);
        shell
            .env("PROGRAM", &program)
            .env("PRESET_CALLED", "./preset")
            .current_dir(folder.with_file_name(""));
        let told = said(shell, b"").out;
        got.push(format!("$ {line}"));
        got.extend(told.lines().map(String::from));
    }
    assert_eq!(shown.len(), 12);
    assert_eq!(got, shown);
}

// And its picture is what the command draws.
#[test]
fn the_readmes_picture_is_true() {
    let from = "presets/stage-d13x.toml";
    let got = preset(&["map", from, "--app", "profile-spot", "--svg", "-"]);
    assert_eq!(got, accepted(include_str!("../../../docs/map.svg")));
}
