//! Faults lead to the right line: each field of a preset is spoilt where it stands, and the answer must name that line.
use preset::explain;
use preset::{Fault, Preset, Section, Selection};

const STAGE: &str = include_str!("../../../presets/stage-d13x.toml");
const TOUR: &str = include_str!("../../../presets/tour-d21x.toml");
const CALIB: &str = include_str!("../../../presets/calib-d13x.toml");

fn fault(text: &[u8]) -> Fault {
    let refusal = Preset::validate(text, b"board").expect_err("refused");
    Fault::find(text, refusal, None)
}

// The lines `key = value`, from 1, that begin and end in one line; with the key and the value.
fn assignments(text: &str) -> Vec<(usize, &str, &str)> {
    let each = text.lines().enumerate().filter_map(|(at, line)| {
        let line = line.split(" #").next()?.trim();
        let (key, value) = line.split_once('=')?;
        let value = value.trim();
        let count = |bracket| value.matches(bracket).count();
        let whole = !line.starts_with(['#', '[', '"']) && count('[') == count(']');
        whole.then_some((at + 1, key.trim(), value))
    });
    each.collect()
}

// The text with that line replaced.
fn spoilt(text: &str, line: usize, by: &str) -> String {
    let lines = text.lines().enumerate().map(|(at, own)| {
        if at + 1 == line {
            format!("{by}\n")
        } else {
            format!("{own}\n")
        }
    });
    lines.collect()
}

// The header above a line.
fn header(text: &str, line: usize) -> usize {
    let above = text.lines().take(line).enumerate();
    let found = above.filter(|(_, line)| line.starts_with('[')).last();
    1 + found.expect("a header").0
}

#[test]
fn every_field_of_the_wrong_kind() {
    for text in [STAGE, TOUR, CALIB] {
        let all = assignments(text);
        assert!(all.len() > 40, "{}", all.len());
        for (line, key, _) in all {
            // an array with a number in it is no text, no number, no boolean and no feature list
            let fault = fault(spoilt(text, line, &format!("{key} = [7]")).as_bytes());
            assert_eq!(
                (fault.refusal.number, fault.line),
                (20, Some(line)),
                "{key}"
            );
            let detail = fault.detail.expect("a detail");
            assert!(detail.starts_with(&format!("`{key}` ")), "{detail}");
        }
    }
}

#[test]
fn every_number_out_of_range() {
    for text in [STAGE, TOUR, CALIB] {
        for (line, key, value) in assignments(text) {
            if !value.starts_with(|c: char| c.is_ascii_digit()) {
                continue;
            }
            for wrong in ["-1", "0x1_0000_0000"] {
                let fault = fault(spoilt(text, line, &format!("{key} = {wrong}")).as_bytes());
                assert_eq!(
                    (fault.refusal.number, fault.line),
                    (21, Some(line)),
                    "{key}"
                );
            }
        }
    }
}

#[test]
fn every_list_that_is_too_long() {
    let mut met = 0;
    for (line, key, _) in assignments(STAGE) {
        if !key.ends_with("features") {
            continue;
        }
        for list in ["x,".repeat(33), "x y ".repeat(17)] {
            let fault = fault(spoilt(STAGE, line, &format!("{key} = \"{list}\"")).as_bytes());
            assert_eq!(
                (fault.refusal.number, fault.line),
                (25, Some(line)),
                "{key}"
            );
            met += 1;
        }
    }
    assert!(met > 10, "{met}");
}

// What is missing is told at its entry's header.
#[test]
fn every_field_that_is_needed() {
    let mut met = 0;
    for text in [STAGE, TOUR, CALIB] {
        for (line, key, _) in assignments(text) {
            let Err(refusal) = Preset::read(spoilt(text, line, "").as_bytes(), b"") else {
                continue;
            };
            assert_eq!(refusal.number, 24);
            let fault = fault(spoilt(text, line, "").as_bytes());
            assert_eq!(fault.line, Some(header(text, line)), "{key}");
            assert_eq!(fault.detail, Some(format!("no `{key}`")));
            met += 1;
        }
    }
    assert!(met > 30, "{met}");
}

#[test]
fn words_that_nobody_knows() {
    for (line, key, _) in assignments(STAGE) {
        if !["chip", "media", "kind"].contains(&key) {
            continue;
        }
        let fault = fault(spoilt(STAGE, line, &format!("{key} = \"z\"")).as_bytes());
        assert_eq!(
            (fault.refusal.number, fault.line),
            (22, Some(line)),
            "{key}"
        );
        assert!(
            fault
                .detail
                .expect("words")
                .starts_with(&format!("`{key}` is \"z\"; "))
        );
    }
    let at = |text: &str| {
        (
            fault(text.as_bytes()).refusal.number,
            fault(text.as_bytes()).line,
        )
    };
    assert_eq!(
        at("[image]\nmedia = \"y\"\nplatform = \"z\"\n"),
        (22, Some(3))
    );
    assert_eq!(
        at("[image]\nmedia = \"y\"\nplatform = \"d13x\"\n"),
        (22, Some(2))
    );
    assert_eq!(
        at("[image]\nmedia = \"y\"\nplatform = \"z\"\n[board]\nchip = \"d13x\""),
        (22, Some(2))
    );
}

// Every example of docs/REFUSALS.md: what is told of it names a line wherever the text has one that is meant.
#[test]
fn every_example_has_its_line() {
    let mut met = 0;
    for entry in explain::entries() {
        for example in entry.examples.iter().filter(|e| e.tag.is_empty()) {
            let text = example.preset.as_bytes();
            let app = example.app();
            let selection = app.map_or(Selection::Bootloader, |key| Selection::App(key.into()));
            let Err(refusal) = Preset::plan(text, b"board", &selection) else {
                // 17 is a matter of rooms, and these are large enough
                assert_eq!(entry.number, 17);
                continue;
            };
            let fault = Fault::find(text, refusal, app);
            if entry.number == 17 {
                continue;
            }
            assert_eq!(refusal.number, entry.number);
            let none = fault.line.is_none();
            assert_eq!(none, matches!(entry.number, 40 | 50 | 70 | 80), "{fault:?}");
            met += 1;
        }
    }
    assert!(met > 50, "{met}");
}

// Rules, spoilt in the presets: an edit, the number, and what the line that is told has in it.
const RULES: [(&str, &str, u32, &str); 20] = [
    (
        "\"spi-nor\"\nmedia_dev",
        "\"spi-nand\"\nmedia_dev",
        30,
        "media        = \"spi-nand\"",
    ),
    (
        "platform     = \"d13x\"",
        "platform     = \"d21x\"",
        31,
        "platform     = \"d21x\"",
    ),
    ("\"release\"", "\"\"", 32, "profile = \"\""),
    (
        "\"spots\"  ",
        "\"a name of more than thirty-two bytes\"",
        33,
        "app          =",
    ),
    ("riscv32imafc", "x86_64", 34, "target  ="),
    ("riscv32imafc", "riscv64gc", 35, "target  ="),
    (
        "offset = 0x000000",
        "offset = 0x001000",
        41,
        "offset = 0x001000",
    ),
    ("name   = \"gobos\"", "name   = \"\"", 42, "name   = \"\""),
    ("size   = 0x010000", "size   = 0", 44, "size   = 0"),
    (
        "offset = 0x042000",
        "offset = 0x042001",
        45,
        "offset = 0x042001",
    ),
    (
        "size   = 0x010000",
        "size   = 0xFFFFF000",
        48,
        "size   = 0xFFFFF000",
    ),
    ("\"loader\"", "\"psram\"", 51, "name            = \"psram\""),
    (
        "\"loader\"",
        "\"a name of more than thirty-two bytes\"",
        52,
        "name            = \"a name",
    ),
    (
        "\"blobs/env.bin\"",
        "\"e\"\npackage = \"e\"",
        53,
        "file      = \"e\"",
    ),
    (
        "\"pbp-common\"",
        "\"pbp-common\"\npbp = \"p\"",
        55,
        "pbp_package     = \"pbp-common\"",
    ),
    ("partition = \"env\"", "", 57, "[[component]]"),
    ("0x4000\n", "0x4001\n", 59, "ext_reserve     = 0x4001"),
    (
        "\"pbp-common\"",
        "\"pbp-psram\"",
        60,
        "pbp_package     = \"pbp-psram\"",
    ),
    ("\"LED bars\"", "\"\"", 61, "name      = \"\""),
    (
        "0x40700000\n\n[apps.profile-beam]",
        "0x40700002\n\n[apps.profile-beam]",
        66,
        "load_address = 0x40700002",
    ),
];

#[test]
fn rules_are_told_at_their_fields() {
    for (from, to, number, meant) in RULES {
        let text = STAGE.replacen(from, to, 1);
        assert_ne!(text, STAGE, "{from}");
        let fault = fault(text.as_bytes());
        assert_eq!(fault.refusal.number, number, "{fault:?}");
        let line = fault.line.expect("a line");
        let told = text.lines().nth(line - 1).expect("it is there");
        assert!(told.starts_with(meant), "{number}: {told}");
        assert_eq!(fault.text.as_deref(), Some(told), "{number}");
    }
}

// Lists that are written otherwise than by headers, and entries that are no tables.
#[test]
fn odd_lists() {
    let at = |text: &str| {
        let fault = fault(text.as_bytes());
        let entry = fault.entry.expect("an entry");
        (fault.refusal.number, fault.line, entry)
    };
    let partitions = "partitions".to_string();
    assert_eq!(
        at("\npartition = [\n1]\n"),
        (23, Some(2), "partition 0".into())
    );
    assert_eq!(
        at("[[partition]]\nname=\"a\"\noffset=0\nsize=1\n[partition.x]\n"),
        (20, Some(5), partitions.clone())
    );
    assert_eq!(at("partition = \"x\""), (20, Some(1), partitions.clone()));
    assert_eq!(at("\n\npartition = []"), (40, Some(3), partitions));
    assert_eq!(
        at("[apps]\na = 1\n"),
        (23, Some(2), "application 0 \"a\"".into())
    );
    assert_eq!(
        at("\n[apps]\nb.name = 1\na.features = 2\n"),
        (20, Some(4), "application 0 \"a\"".into())
    );
    assert_eq!(at("apps = 1"), (20, Some(1), "applications".into()));
    assert_eq!(at("board = 1"), (20, Some(1), "board".into()));
    // the newest value of a key counts
    assert_eq!(
        at("[[partition]]\nname = 1\nname = \"x\"\noffset = 0\noffset = \"0\""),
        (20, Some(5), "partition 0 \"x\"".into())
    );
}

// What is told of an application with that line, where there are three partitions with these locks.
fn with_locks(names: [&str; 3], locks: [bool; 3], app: &str) -> String {
    let part = |i: usize| {
        let (name, at, locked) = (names[i], i * 4096, locks[i]);
        format!("[[partition]]\nname = \"{name}\"\noffset = {at}\nsize = 4096\nlocked = {locked}\n")
    };
    let parts: String = (0..3).map(part).collect();
    let first = names[0];
    said(format!(
        "{parts}[[component]]\nname = \"x\"\nfile = \"f\"\npartition = \"{first}\"\n[apps.k]\n{app}\n"
    ))
}

const LOCKED: &str = "application 0 \"k\": refused 67: partition";

// At the key that names the partition, else at the application, and with the partitions that are left to it.
#[test]
fn locks_are_told_at_the_application() {
    let told = |locks, app| with_locks(["boot", "calib", "app"], locks, app);
    let calib = |locks| told(locks, "partition = \"calib\"");
    let own = |rest: &str| format!("21: {LOCKED} \"calib\" is locked; {rest}");
    assert_eq!(calib([false, true, false]), own("open are boot, app"));
    assert_eq!(calib([true, true, false]), own("open is app"));
    assert_eq!(calib([true; 3]), own("none is open"));
    let taken = "it is taken where no `partition` is written; open are boot, calib";
    assert_eq!(
        told([false, false, true], "name = \"k\""),
        format!("20: {LOCKED} \"app\" is locked; {taken}")
    );
    // whoever mends a misspelled name is told which ones are locked
    let there = "(\"calib\"?); there are boot (locked), calib (locked), app";
    let misspelled = told([true, true, false], "partition = \"calb\"");
    assert!(misspelled.ends_with(there), "{misspelled}");
}

// Whole names are compared, and shown so that no terminal obeys them.
#[test]
fn locks_of_odd_names() {
    let told = |locks, app| with_locks(["a", "a;b", "\u{1b}"], locks, app);
    assert_eq!(
        told([false, true, false], "partition = \"a;b\""),
        format!("21: {LOCKED} \"a;b\" is locked; open are a, \\u{{1b}}")
    );
    assert_eq!(
        told([true, false, true], "\npartition = \"\u{1b}\""),
        format!("22: {LOCKED} \"\\u{{1b}}\" is locked; open is a;b")
    );
}

// What the text does not have is not told as if it were written there.
#[test]
fn a_default_is_told_to_be_one() {
    let preset = "[[partition]]\nname = \"a\"\noffset = 0\nsize = 0x1000\n[[component]]\n\
                  name = \"x\"\npackage = \"p\"\npartition = \"a\"\n[apps.k]\n";
    let detail = |rest: &str| {
        let fault = fault((preset.to_owned() + rest).as_bytes());
        (fault.refusal.number, fault.line, fault.detail.expect("one"))
    };
    let taken = "\"app\", which is taken where no `partition` is written; there is a".to_string();
    assert_eq!(detail("partiton = \"a\"\n"), (64, Some(9), taken));
    assert_eq!(
        detail("partition = \"app\"\n"),
        (64, Some(10), "\"app\"; there is a".into())
    );
}

#[test]
fn long_and_plural_lists() {
    let at = |text: &str| {
        let fault = fault(text.as_bytes());
        let entry = fault.entry.expect("an entry");
        (fault.refusal.number, fault.line, entry)
    };
    // plural where there is no singular
    assert_eq!(
        at("[[partitions]]\nname = 1\n"),
        (20, Some(2), "partition 0".into())
    );
    let many = "[[component]]\nname = \"x\"\n".repeat(65);
    assert_eq!(at(&many), (25, Some(129), "component 64 \"x\"".into()));
}

// A value over many lines is told at its first, and comments, blank lines and CRLF count as lines.
#[test]
fn lines_as_editors_count() {
    let text = "# one\r\n\r\n[[partition]] # three\r\nname = \"a\"\r\noffset = 0\r\nsize = 0x1000\r\n\
                [[component]]\r\nname = \"x\"\r\nfeatures = [ # nine\r\n  \"f\",\r\n\r\n  7,\r\n]\r\n";
    let fault = fault(text.as_bytes());
    assert_eq!((fault.refusal.number, fault.line), (20, Some(9)));
    assert_eq!(fault.text.as_deref(), Some("features = [ # nine"));
    assert_eq!(fault.refusal.section, Section::Component);
}

fn said(text: impl AsRef<[u8]>) -> String {
    let fault = fault(text.as_ref());
    let line = fault.line.map_or(String::new(), |line| format!("{line}: "));
    format!("{line}{fault}")
}

// Files of other encodings, and such as have no lines.
#[test]
fn what_is_no_text_is_told_by_its_look() {
    let wide = |mark: &[u8], bytes: fn(u16) -> [u8; 2]| {
        let text = STAGE.encode_utf16().flat_map(bytes);
        said([mark.to_vec(), text.collect()].concat())
    };
    let utf16 = "1: refused 2: not UTF-8: it is UTF-16; save the file as UTF-8";
    assert_eq!(wide(&[0xFF, 0xFE], u16::to_le_bytes), utf16);
    assert_eq!(wide(&[0xFE, 0xFF], u16::to_be_bytes), utf16);
    let zeros = "refused 5: neither a header nor an assignment: \
                 it has zero bytes, as UTF-16 has; save the file as UTF-8";
    assert_eq!(wide(&[], u16::to_le_bytes), format!("2: {zeros}"));
    assert_eq!(wide(&[], u16::to_be_bytes), format!("1: {zeros}"));
    assert_eq!(
        said(b"# \x93"),
        "1: refused 2: not UTF-8: byte 0x93; save the file as UTF-8"
    );
    assert_eq!(
        said(STAGE.replace('\n', "\r")),
        "partitions: refused 40: no partitions: no line ends: a CR alone ends none, LF or CRLF does"
    );
    let empty = "partitions: refused 40: no partitions: the text is empty";
    assert_eq!(said(" \n\r\n"), empty);
    assert_eq!(said(""), empty);
    assert_eq!(said("# x"), "partitions: refused 40: no partitions");
}

// Which table a line stands in is the library's to say, however its header is written.
#[test]
fn a_field_is_known_wherever_it_stands() {
    let wants = "refused 12: not an integer: `chip` wants text in double quotes: \"d13x\"";
    for (text, line) in [
        ("[board]\nchip = d13x", 2),
        ("board.chip = d13x", 1),
        ("[\n board # x\n]\n\"chip\" = d13x # y", 4),
        ("[\"board\"]\nx = [\n[1],\n]\nchip = d13x\n", 5),
        ("[image]\n[board]\r\nx = \"\n[image]\n\"\r\n chip=d13x", 6),
    ] {
        assert_eq!(said(text), format!("{line}: {wants}"), "{text}");
    }
    let any = "refused 12: not an integer: a value is ";
    for text in [
        "chip = d13x",
        "[x]\nchip = d13x",
        "[board.x]\nchip = d13x",
        "[image]\nchip = d13x",
    ] {
        assert!(said(text).contains(any), "{}", said(text));
    }
}

#[test]
fn numbers_are_told_as_they_are_written() {
    let out = |number: &str| {
        let text = format!("[[partition]]\nname = \"a\"\noffset = {number} # x\n");
        said(text).split_once("range: ").expect("21").1.to_string()
    };
    assert_eq!(out("-1"), "`offset` is -1; it is from 0 to 4294967295");
    assert_eq!(
        out("0x1_0000_0000"),
        "`offset` is 0x1_0000_0000; it is from 0 to 0xFFFFFFFF"
    );
    assert_eq!(
        out("4_294_967_296"),
        "`offset` is 4_294_967_296; it is from 0 to 4294967295"
    );
    assert_eq!(out("0X-5"), "`offset` is 0X-5; it is from 0 to 0xFFFFFFFF");
}

// What stands in the way of a list was made further up, by a header, a key or a longer header.
#[test]
fn the_line_in_the_way_is_told() {
    let told = |text: &str| said(text).split_once("array: ").expect("13").1.to_string();
    assert_eq!(
        told("\n[a] # x\n[[ a ]]"),
        "`a` is a table since line 2: [a]"
    );
    assert_eq!(
        told("a = 1\na = [\n]\na = true\n[[a]]"),
        "`a` is a boolean since line 4: a = true"
    );
    assert_eq!(
        told("[[a]]\n[a.b]\nc = 1\n[[a]]"),
        "`a` is a table since line 2: [a.b]"
    );
    assert_eq!(
        told("[a]\nb.c = 1\n[[a.\"b\"]]"),
        "`a.\"b\"` is a table since line 2: b.c = 1"
    );
}

#[test]
fn applications_are_found_by_key_and_by_name() {
    let asked = |key: &str| {
        let refusal = Preset::plan(STAGE.as_bytes(), b"", &Selection::App(key.into()));
        let fault = Fault::find(STAGE.as_bytes(), refusal.expect_err("80"), Some(key));
        let detail = fault.detail.expect("one");
        detail
            .split_once("; declared: lamp-log, profile-bar")
            .expect("all")
            .0
            .to_string()
    };
    assert_eq!(
        asked("Profile_Spot"),
        "\"Profile_Spot\" (\"profile-spot\"?)"
    );
    assert_eq!(asked("lamplog"), "\"lamplog\" (\"lamp-log\"?)");
    assert_eq!(asked("LED bars"), "\"LED bars\" (\"profile-bar\"?)");
    assert_eq!(asked("x"), "\"x\"");
}

// Thirty-two long names, one of which is meant.
#[test]
fn what_is_long_is_cut_and_stays_in_one_line() {
    let name = |i: usize| format!("{i}{}", "x".repeat(90));
    let partition = |i: usize| {
        let name = name(i);
        format!(
            "[[partition]]\nname = \"{name}\"\noffset = {}\nsize = 4096\n",
            i * 4096
        )
    };
    let all: String = (0..32).map(partition).collect();
    let own = name(7).replacen('x', "y", 1);
    let text = format!("{all}[[component]]\nname = \"a\"\nfile = \"f\"\npartition = \"{own}\"\n");
    let told = said(&text);
    assert!(
        told.contains(&format!("(\"{}\"?); there are ", name(7))),
        "{told}"
    );
    assert!(told.ends_with('…') && told.chars().count() < 500, "{told}");
}

// Every sign that means something, typed over or into a preset anywhere: what is told is one line.
#[test]
fn slips_of_the_hand_are_told_in_one_line() {
    let signs = [
        "\"", "'", "[", "]", "{", "=", "#", "\\", ".", ",", ":", " ", "\n", "\0", "é", "-", "“",
    ];
    let emulated = std::env::var("PRESET_EMULATED").is_ok();
    let step = if emulated { 997 } else { 61 };
    let places = (0..STAGE.len()).flat_map(|at| signs.iter().map(move |sign| (at, sign)));
    for (at, sign) in places.step_by(step) {
        for end in [at, at + 1] {
            let text = [&STAGE[..at], sign, &STAGE[end..]].concat();
            let Err(refusal) = Preset::validate(text.as_bytes(), b"board") else {
                continue;
            };
            let told = Fault::find(text.as_bytes(), refusal, None).to_string();
            let odd = |c: char| c.is_control() && c != '\t';
            assert!(
                !told.contains(odd) && told.chars().count() < 700,
                "{told:?}"
            );
        }
    }
}
