//! The listing against the definitions alone; these tests need no original.
use port::listing::{Listed, list, out_min};
use port::text::TEXT_MAX;
use port::value::{STORE_MIN, TREE_MIN};
use replay::generators::plan::cases::CASES;
use replay::generators::random::Rng;
use replay::generators::records::random::{EXAMPLES, NAMES};
use replay::generators::validate::spelled;
use replay::generators::{large, listing as random, names};
use replay::harness::ask::listing::Host;
use replay::harness::met::Met;
use replay::harness::rooms::holds;
use replay::harness::split;
use replay::model::listing as model;
use replay::model::records;

// 01's example, and what it prints, as the program's own test has them.
const EXAMPLE: [&str; 2] = [
    include_str!("../../../crates/listing/stdin"),
    include_str!("../../../crates/listing/stdout"),
];

#[test]
fn example_by_definition() {
    let [text, lines] = EXAMPLE;
    assert_eq!(text, EXAMPLES[0]);
    let got = model::read(text.as_bytes(), b"board").expect("accepted");
    assert_eq!(String::from_utf8_lossy(&got), lines);
}

// A text and what 01 says of a part of its listing.
const RULES: [(&str, &str); 15] = [
    ("", "ok d13x spi-nor 1 1 0 10\n"),
    ("", "stem \"board\"\n"),
    ("[board]\nname = \"n m\"\n", "stem \"n m\"\n"),
    ("[board]\nname = \"\"\n", "stem \"\"\n"),
    ("[board]\nchip = \"d21x\"\n", "ok d21x spi-nand 1 1 0 12\n"),
    ("", "part \"p\" 0 262144 open\n"),
    (
        "[[partition]]\nname = \"q open\\nr\"\noffset = 0x40000\nsize = 4096\nlocked = true\n",
        "part \"q open\\nr\" 262144 266240 locked\ncomp \"c\" raw \" p \"\n",
    ),
    (
        "[[partition]]\nname = \"q\"\noffset = 0x40000\nsize = 4096\nlocked = false\n",
        "part \"q\" 262144 266240 open\n",
    ),
    ("", "comp \"c\" raw \" p \"\n"),
    (
        "[apps.k]\nname = \"n\"\npartition = \"p\"\n",
        "app \"k\" \"n\" \"p\"\n",
    ),
    ("", "build \"b\" 0\n"),
    (
        "[[component]]\nname = \"u\"\nupdater = true\nram = 0\npackage = \"w\"\nfeatures = [\"y\", \"x\", \"y\"]\n",
        "comp \"u\" raw -\nbuild \"b\" 0\nbuild \"w\" 2\n",
    ),
    // a reference that is a dash is no absent one
    (
        "[[partition]]\nname = \"-\"\noffset = 0x40000\nsize = 4096\n\
         [[component]]\nname = \"-\"\nfile = \"\"\npartition = \"-\"\n\
         [[component]]\nname = \"u\"\nfile = \"\"\nupdater = true\nram = 0\n",
        "part \"-\" 262144 266240 open\ncomp \"c\" raw \" p \"\ncomp \"-\" raw \"-\"\ncomp \"u\" raw -\n",
    ),
    (
        "[[component]]\nname = \"\"\nfile = \"\"\nupdater = true\nram = 0\npartition = \"\"\n",
        "comp \"\" raw -\nbuild \"b\" 0\n",
    ),
    (
        "package = \"\"\nkind = \"app\"\n",
        "comp \"c\" app \" p \"\nbuild \"\" 0\nstem \"\"\n",
    ),
];

// What all of them have: one partition and one component.
const BASE: &str = "[[partition]]\nname = \"p\"\noffset = 0\nsize = 0x40000\n\
                    [[component]]\nname = \"c\"\npartition = \" p \"\npackage = \"b\"\n";

#[test]
fn lines_by_definition() {
    for (more, want) in RULES {
        let text = format!("{BASE}{more}");
        let got = model::read(text.as_bytes(), b"board");
        let got = got.unwrap_or_else(|e| panic!("{text}: {e:?}"));
        let got = String::from_utf8_lossy(&got).into_owned();
        assert!(got.contains(want), "{want:?} in {got:?}");
    }
}

// Also where the stem is the lent name, each byte of which is printed as two.
#[test]
fn the_output_is_large_enough() {
    let text = large::escaped();
    assert_eq!(text.len(), TEXT_MAX);
    let lines = model::read(text.as_bytes(), b"").expect("accepted");
    assert!(lines.len() > 130_700, "{} bytes", lines.len());
    assert!(lines.len() < out_min(b""), "{} bytes", lines.len());
    let (text, name) = (text.replace("kind=\"app\"\n", ""), [b'"'; 50_000]);
    let lines = model::read(text.as_bytes(), &name).expect("accepted");
    assert!(lines.len() > 165_000, "{} bytes", lines.len());
    assert!(lines.len() < out_min(&name), "{} bytes", lines.len());
}

fn judged(host: &mut Host, text: &[u8], name: &[u8]) -> u32 {
    let want = model::read(text, name);
    let told = host.judge(text, name, &want);
    told.unwrap_or_else(|e| panic!("{}: port against definition, {e}", text.escape_ascii()));
    want.err().map_or(0, |refusal| refusal.number)
}

#[test]
fn examples() {
    let mut host = Host::default();
    let large = [
        large::escaped(),
        large::long_names(true),
        large::long_names(false),
    ];
    for text in EXAMPLES.into_iter().chain(large.iter().map(String::as_str)) {
        for name in NAMES {
            let want = model::read(text.as_bytes(), name);
            let told = host.judge_fully(text.as_bytes(), name, &want);
            told.unwrap_or_else(|e| panic!("{e}"));
        }
    }
}

#[test]
fn around_every_boundary() {
    let mut host = Host::default();
    spelled::each(&CASES, 15, |text| {
        judged(&mut host, text, b"board");
    });
}

// Each name in all places, with the listing that is written beside it; and lent.
#[test]
fn odd_names() {
    let mut host = Host::default();
    for name in names::all() {
        for (text, lines) in [true, false].map(|leads| names::everywhere(&name, leads)) {
            let want = Ok(lines.into_bytes());
            assert_eq!(model::read(text.as_bytes(), b"lent"), want, "{text}");
            let told = host.judge_fully(text.as_bytes(), b"lent", &want);
            told.unwrap_or_else(|e| panic!("{text}: {e}"));
        }
        let (written, shown) = name;
        let board = format!("[board]\nname = \"{written}\"\n");
        let board = records::read(board.as_bytes(), b"").expect("records");
        let lent = board.preset.board.name.into_bytes();
        let want = model::read(BASE.as_bytes(), &lent);
        let stem = format!("\nstem \"{shown}\"\n");
        assert!(want.as_ref().expect("accepted").ends_with(stem.as_bytes()));
        let told = host.judge_fully(BASE.as_bytes(), &lent, &want);
        told.unwrap_or_else(|e| panic!("{written}: {e}"));
    }
}

// What is easily lost among fields: each is met in many listings.
const SEEN: [&[u8]; 13] = [
    b"\\\"",
    b"\\\\",
    b"\\n",
    b"\\t",
    b"\\r",
    b"\\\\n",
    b"\\\\\\\"",
    b"\0",
    "\u{85}".as_bytes(),
    b"\" \"",
    b" \"-\"",
    b" -\n",
    b" \"\"",
];

// The port prints what the definitions say, and its lines are split into the fields that they are made of.
#[test]
fn random_presets() {
    let (mut r, mut host, mut met) = (Rng::new(16), Host::default(), Met::default());
    let mut seen = [0; SEEN.len()];
    for _ in 0..10_000 {
        let (name, text) = (names::lent(&mut r), random::text(&mut r));
        met.count(judged(&mut host, &text, &name));
        let Ok(fields) = model::fields(&text, &name) else {
            continue;
        };
        let lines = model::printed(&fields);
        assert_eq!(split::fields(&lines), Ok(fields), "{}", text.escape_ascii());
        for (count, piece) in seen.iter_mut().zip(SEEN) {
            *count += usize::from(lines.windows(piece.len()).any(|own| own == piece));
        }
    }
    assert!(met.of(0) > 3_000 && met.numbers() > 40, "{}", met.summary());
    assert!(seen.iter().all(|count| *count > 500), "{seen:?}");
}

// 17 goes by the lengths alone, before the text; all three are zero then.
#[test]
fn lent_rooms() {
    let long = "a".repeat(TEXT_MAX + 1);
    let texts = ["", "]", &long, EXAMPLES[0]];
    for name in [&b""[..], b"board", &[b'n'; 4_096]] {
        let least = [STORE_MIN, TREE_MIN, out_min(name)];
        for n in 0..3 {
            // what was enough for an output before names were quoted is among them
            for length in [0, 1, (73_984 + name.len()).min(least[n] - 1), least[n] - 1] {
                let mut rooms = least.map(|length| vec![0xAA; length]);
                rooms[n].truncate(length);
                let [store, tree, out] = &mut rooms;
                for text in texts {
                    let got = list(text.as_bytes(), name, store, tree, out);
                    let number = 17;
                    let bare = Listed::default();
                    assert_eq!(got, Listed { number, ..bare }, "room {n} of {length}");
                    holds(store, b"").expect("store");
                    holds(tree, b"").expect("tree room");
                    holds(out, b"").expect("output");
                }
            }
        }
    }
}

// The name is printed where it is UTF-8; in outputs that end at a protected page.
#[test]
fn long_names() {
    let mut host = Host::default();
    for length in [1, 4_095, 4_096, 4_097, 65_535, 65_536, 69_999] {
        for (byte, last) in [(b'n', b"n"), (b'\t', b"\\"), (b'n', b"\xFF")] {
            let name = [&vec![byte; length - 1], &last[..]].concat();
            let want = model::read(BASE.as_bytes(), &name);
            let stem = match last {
                b"\xFF" => "board".into(),
                b"\\" => "\\t".repeat(length - 1) + "\\\\",
                _ => "n".repeat(length),
            };
            let stem = format!("stem \"{stem}\"\n");
            assert!(want.as_ref().expect("accepted").ends_with(stem.as_bytes()));
            let told = host.judge_fully(BASE.as_bytes(), &name, &want);
            told.unwrap_or_else(|e| panic!("{length}: {e}"));
        }
    }
}

// The longest name that is taken, and one that is not, since no number of 32 bits says how much would be written.
#[test]
#[ignore = "takes 7 GB of memory"]
fn the_longest_names() {
    let most = 2_147_412_223;
    for (length, number) in [(most, 0), (most + 1, 17)] {
        let name = vec![b'n'; length];
        let (mut store, mut tree) = (vec![0xAA; STORE_MIN], vec![0xAA; TREE_MIN]);
        let mut out = vec![0; out_min(&name)];
        let got = list(BASE.as_bytes(), &name, &mut store, &mut tree, &mut out);
        assert_eq!(got.number, number);
        let lines = &out[..got.written as usize];
        let stem = lines
            .strip_suffix(b"\"\n")
            .and_then(|s| s.strip_suffix(&name[..]));
        assert_eq!(stem.is_some_and(|s| s.ends_with(b"\nstem \"")), number == 0);
        assert!(
            number == 0
                || [store, tree, out]
                    .iter()
                    .all(|room| holds(room, b"").is_ok())
        );
    }
}
