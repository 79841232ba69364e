//! Keys that the rules do not know: each is found where it stands, and nothing else is.
use preset::Preset;
use preset::explain;
use preset::unknown::{Unknown, keys};
use replay::generators::mixed;
use replay::generators::random::Rng;

const PRESETS: [&str; 4] = [
    include_str!("../../../presets/example.toml"),
    include_str!("../../../presets/stage-d13x.toml"),
    include_str!("../../../presets/tour-d21x.toml"),
    include_str!("../../../presets/calib-d13x.toml"),
];

// Each as `LINE: what is said`.
fn told(text: impl AsRef<[u8]>) -> Vec<String> {
    let line = |key: &Unknown| key.line.map_or("?".into(), |line| line.to_string());
    keys(text.as_ref())
        .map(|key| format!("{}: {key}", line(&key)))
        .collect()
}

fn nothing() -> Vec<String> {
    Vec::new()
}

#[test]
fn presets_have_none() {
    for preset in PRESETS {
        assert_eq!(told(preset), nothing());
    }
}

// What the documents show as accepted has none either; below the rules an example need not be a preset.
#[test]
fn mended_examples_have_none() {
    let mut met = 0;
    for entry in explain::entries() {
        let Some(mended) = entry.mended else { continue };
        if Preset::validate(mended.as_bytes(), b"board").is_ok() {
            assert_eq!(told(mended), nothing(), "{}", entry.number);
            met += 1;
        }
    }
    assert!(met > 25, "{met}");
}

// Examples of single fields and rules are refused for what they show and not for a slip.
#[test]
fn refused_examples_have_none() {
    let mut met = 0;
    let entries = explain::entries().into_iter();
    for entry in entries.filter(|entry| entry.number >= 20) {
        for example in entry.examples.iter().filter(|e| e.tag.is_empty()) {
            assert_eq!(told(example.preset), nothing(), "{}", entry.number);
            met += 1;
        }
    }
    assert!(met > 40, "{met}");
}

#[test]
fn every_section() {
    let text = "x = 1\n[board]\nchp = \"d13x\"\n[image]\nmedia_dev = 0\n[bord]\nchip = \"d13x\"\n\
                [[partition]]\nname = \"boot\"\nofset = 0\n[[partition]]\nsiez = 1\n\
                [[component]]\n[[component]]\nname = \"ddr\"\nload_adress = 1\n\
                [apps.b]\n[apps.a]\nfeature = \"x\"\n";
    let want = [
        "1: unknown key \"x\" is passed over",
        "3: board: unknown key \"chp\" is passed over (chip?)",
        "5: image: unknown key \"media_dev\" is passed over (media_dev_id?)",
        "6: unknown key \"bord\" is passed over (board?)",
        "10: partition 0 \"boot\": unknown key \"ofset\" is passed over (offset?)",
        "12: partition 1: unknown key \"siez\" is passed over (size?)",
        "16: component 1 \"ddr\": unknown key \"load_adress\" is passed over (load_address?)",
        "19: application 0 \"a\": unknown key \"feature\" is passed over (features?)",
    ];
    assert_eq!(told(text), want);
}

// A field is known in its own table only, and it is told which one that is.
#[test]
fn fields_in_the_wrong_table() {
    let text = "chip = \"d13x\"\n[board]\nmedia = \"spi-nor\"\n[image]\nchip = \"d13x\"\n\
                [[partition]]\nfilename = \"x\"\n[apps.k]\nkind = \"app\"\n";
    let want = [
        "1: unknown key \"chip\" is passed over (a key of [board])",
        "3: board: unknown key \"media\" is passed over (a key of [image])",
        "5: image: unknown key \"chip\" is passed over (a key of [board])",
        "7: partition 0: unknown key \"filename\" is passed over (a key of [[component]], [apps.KEY])",
        "9: application 0 \"k\": unknown key \"kind\" is passed over (a key of [[component]])",
    ];
    assert_eq!(told(text), want);
}

// Every field of every table spelled with a letter more: this one is found and led back.
#[test]
fn every_field_misspelled() {
    let mut met = 0;
    for preset in PRESETS {
        let lines: Vec<&str> = preset.lines().collect();
        for (at, line) in lines.iter().enumerate() {
            let Some((key, _)) = line.split_once('=') else {
                continue;
            };
            let key = key.trim_end();
            if key.is_empty() || !key.bytes().all(|b| b.is_ascii_lowercase() || b == b'_') {
                continue;
            }
            let mut spoilt: Vec<String> = lines.iter().map(|l| l.to_string()).collect();
            spoilt[at] = line.replacen(key, &format!("{key}s"), 1);
            let found: Vec<Unknown> = keys(spoilt.join("\n").as_bytes()).collect();
            assert_eq!(found.len(), 1, "{line}");
            assert_eq!(found[0].line, Some(at + 1), "{line}");
            assert_eq!(found[0].key, format!("{key}s"));
            assert_eq!(found[0].near, Some(key));
            assert!(found[0].entry.is_some());
            met += 1;
        }
    }
    assert!(met > 100, "{met}");
}

// Case is no slip: it may be all that is wrong, or be wrong beside a slip.
#[test]
fn keys_in_another_case() {
    let text = "[Board]\n[APPS.k]\n[image]\nMEDIA_DEV_ID = 0\nProdcut = \"x\"\n";
    let want = [
        "1: unknown key \"Board\" is passed over (board?)",
        "2: unknown key \"APPS\" is passed over (apps?)",
        "4: image: unknown key \"MEDIA_DEV_ID\" is passed over (media_dev_id?)",
        "5: image: unknown key \"Prodcut\" is passed over (product?)",
    ];
    assert_eq!(told(text), want);
}

// A key that is cut short leads to the only one that begins so, and never away from a table that has it.
#[test]
fn keys_that_are_cut_short() {
    let text = "[[partition]]\nlock = true\noff = 0\nsi = 0\n[[component]]\nentry = 1\npart = \"x\"\ntarget = \"x\"\n\
                [apps.k]\nfile = \"x\"\nlock = true\n";
    let want = [
        "2: partition 0: unknown key \"lock\" is passed over (locked?)",
        "3: partition 0: unknown key \"off\" is passed over (offset?)",
        "4: partition 0: unknown key \"si\" is passed over",
        "6: component 0: unknown key \"entry\" is passed over",
        "7: component 0: unknown key \"part\" is passed over (partition?)",
        "8: component 0: unknown key \"target\" is passed over (a key of [board])",
        "10: application 0 \"k\": unknown key \"file\" is passed over (a key of [[component]])",
        "11: application 0 \"k\": unknown key \"lock\" is passed over",
    ];
    assert_eq!(told(text), want);
}

#[test]
fn headers() {
    let text = "[[componet]]\nname = \"x\"\nz = 1\n[[componet]]\nname = \"y\"\n[app.k]\n[image.more]\nx = 1\n\
                [a.b.c]\n[apps.k.extra]\n[apps.k.extra.more]\n[y.board]\nchip = 1\n";
    let want = [
        "1: unknown key \"componet\" is passed over (component?)",
        "6: unknown key \"app\" is passed over (apps?)",
        "7: image: unknown key \"more\" is passed over",
        "9: unknown key \"a\" is passed over",
        "10: application 0 \"k\": unknown key \"extra\" is passed over",
        "12: unknown key \"y\" is passed over",
    ];
    assert_eq!(told(text), want);
}

// A list's plural counts where there is no singular, and is not proposed where it would not be read.
#[test]
fn plurals() {
    let plural = "[[partitions]]\nname = \"a\"\nx = 1\n[[components]]\ny = 1\n";
    let own = [
        "3: partition 0 \"a\": unknown key \"x\" is passed over",
        "5: component 0: unknown key \"y\" is passed over",
    ];
    assert_eq!(told(plural), own);
    let both = plural.to_owned() + "[[component]]\nz = 1\n[[partition]]\n[[componets]]\n";
    let want = [
        "1: key \"partitions\" is passed over, since there is \"partition\"",
        "4: key \"components\" is passed over, since there is \"component\"",
        "7: component 0: unknown key \"z\" is passed over",
        "9: unknown key \"componets\" is passed over (component?)",
    ];
    assert_eq!(told(&both), want);
    assert_eq!(
        told("[[componets]]"),
        ["1: unknown key \"componets\" is passed over (components?)"]
    );
    // whatever the singular is, and in other tables the word is a key like any other
    assert_eq!(
        told("partition = 1\n[[partitions]]\n[board]\npartitions = 1\n"),
        [
            "2: key \"partitions\" is passed over, since there is \"partition\"",
            "4: board: unknown key \"partitions\" is passed over"
        ]
    );
    assert_eq!(told("[[boards]]\n[[images]]\n[[app]]").len(), 3);
}

// Keys in dots and quotes are what they are read as, and shown so that no terminal obeys them.
#[test]
fn odd_keys() {
    let text = "board.\"chip\" = \"d13x\"\n\"board\".nmae = \"x\"\n\"a b\" = 1\n\"q\\\"\\\\\\n\" = 1\n\
                \u{1b}[2J = 1\nb\u{f6}ard = 1\n\"x\u{202e}\".board = 1\n' = 1\n";
    let want = [
        "2: board: unknown key \"nmae\" is passed over (name?)",
        "3: unknown key \"a b\" is passed over",
        "4: unknown key \"q\\\"\\\\\\n\" is passed over",
        "6: unknown key \"b\u{f6}ard\" is passed over (board?)",
        "7: unknown key \"x\\u{202e}\" is passed over",
        "8: unknown key \"'\" is passed over",
    ];
    assert_eq!(told(text.replace("\u{1b}[2J = 1", "")), want);
    assert_eq!(
        told("\u{1b}x = 1"),
        ["1: unknown key \"\\u{1b}x\" is passed over"]
    );
    let long = format!("{} = 1\n", "k".repeat(30_000));
    assert!(told(long)[0].chars().count() < 200);
}

// One key is told once, where its newest value is; what a replaced table had is gone.
#[test]
fn replaced_values() {
    assert_eq!(
        told("x = 1\nx = 2\n\nx = 3\n"),
        ["4: unknown key \"x\" is passed over"]
    );
    let table = "[board]\nnmae = 1\n[image]\nx = 1\n[[partition]]\ny = 1\n[[component]]\nz = 1\n";
    assert_eq!(told(table).len(), 4);
    let gone = "[w]\n[image.x]\n[component.x]\n[partition]\n";
    let want = [
        "2: board: unknown key \"nmae\" is passed over (name?)",
        "9: unknown key \"w\" is passed over",
        "10: image: unknown key \"x\" is passed over",
    ];
    assert_eq!(told(table.to_owned() + gone), want);
    assert_eq!(
        told("board.x = 1\nboard = 2\n[board]\ny = 1\n"),
        ["4: board: unknown key \"y\" is passed over"]
    );
}

// What is no table has no keys.
#[test]
fn other_kinds() {
    let text =
        "board = [1]\nimage = \"x\"\npartition = [1, \"x\", [2]]\ncomponent = true\napps = 7\n";
    assert_eq!(told(text), nothing());
    assert_eq!(told("[apps]\na = 1\nb = [2]\nc.name = \"x\"\n"), nothing());
    assert_eq!(told("[partition]\nx = 1\n[components.a]\n"), nothing());
    assert_eq!(told("[[board]]\nx = 1\n[[apps]]\ny = 1\n"), nothing());
    // a known key is known whatever its value is
    assert_eq!(told("[board.chip]\nx = 1\n"), nothing());
}

#[test]
fn lines_as_editors_count() {
    let text = "# one\r\n\r\n[board] # three\r\nx = [ # four\r\n  1,\r\n\r\n  2,\r\n]\r\ny = \"a\r\nb\"\r\nz = 1";
    let want = [
        "4: board: unknown key \"x\" is passed over",
        "9: board: unknown key \"y\" is passed over",
        "11: board: unknown key \"z\" is passed over",
    ];
    assert_eq!(told(text), want);
}

#[test]
fn texts_without_a_tree() {
    assert_eq!(told(""), nothing());
    assert_eq!(told("# x = 1\n\n"), nothing());
    let broken = ["x = 1\ny\n", "x = 1\nz = 1K\n", "x = [", "x = 1\n[[x]]\n"];
    for text in broken {
        assert_eq!(told(text), nothing(), "{text}");
    }
    assert_eq!(told(b"x = 1\n\xff"), nothing());
    assert_eq!(told("x = 1\n".to_owned() + &"#".repeat(32_768)), nothing());
}

// After each of the list's limits too.
#[test]
fn refused_presets() {
    let refused = "[board]\nchip = 1\nx = 1\n".to_owned() + &"[[component]]\n".repeat(65) + "y = 1";
    let want = [
        "3: board: unknown key \"x\" is passed over",
        "69: component 64: unknown key \"y\" is passed over",
    ];
    assert_eq!(told(refused), want);
}

// As many as a text can have; without lines they are counted at once.
#[test]
fn many() {
    let text: String = (0..2_048).map(|n| format!("k{n:x}=1\n")).collect();
    let mut found = keys(text.as_bytes());
    assert_eq!(found.len(), 2_048);
    let keys: Vec<_> = found.by_ref().take(3).map(|u| (u.line, u.key)).collect();
    let want = [0, 1, 2].map(|n: usize| (Some(n + 1), format!("k{n:x}")));
    assert_eq!((keys, found.len()), (want.into(), 2_045));
}

// Up to its line a text does not have the key, or has an older value of it.
#[test]
fn texts_of_every_sort() {
    let mut r = Rng::new(11);
    let mut met = 0;
    for _ in 0..400 {
        let text = mixed::text(&mut r);
        let mut last = 0;
        for key in keys(&text).take(2) {
            let line = key.line.expect("a line");
            assert!(last <= line && !key.to_string().contains(char::is_control));
            let rest = text.split_inclusive(|&b| b == b'\n').take(line - 1);
            let before = rest.collect::<Vec<_>>().concat();
            let again = keys(&before).find(|k| (&k.entry, &k.key) == (&key.entry, &key.key));
            assert!(again.is_none_or(|again| again.line < key.line), "{key:?}");
            (last, met) = (line, met + 1);
        }
    }
    println!("{met} met");
    assert!(met > 50, "{met}");
}
