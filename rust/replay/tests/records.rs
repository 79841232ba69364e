//! Records against the definitions alone; these tests need no original.
use port::records::{self, FeatureList, FeatureView, Rooms, word};
use port::value::{SLOT, STORE_MIN, TREE_MIN};
use port::views::{View, seen};
use preset::owned;
use replay::generators::random::{Rng, turns};
use replay::generators::records::any::{any_rooms, filled};
use replay::generators::records::draft::{Draft, Edit};
use replay::generators::records::edits::{edited, edits, faults, paired};
use replay::generators::records::random::{self, NAMES, name, text};
use replay::generators::records::spelling::paths;
use replay::harness::ask::records::{Host, difference, look};
use replay::harness::rooms::Room;
use replay::harness::rooms::holds;
use replay::model::answer::records::{Refusal, outcome};
use replay::model::records as model;

fn judged(host: &mut Host, text: &[u8], name: &[u8]) {
    let told = host.judge(text, name, &model::read(text, name));
    told.map_err(|e| panic!("{}: port against definition, {e}", text.escape_ascii()))
        .ok();
}

// Preset, refusal number (0: accepted), section, place.
const RULES: [(&str, u32, u32, usize); 26] = [
    ("", 0, 0, 0),
    ("x", 5, 0, 1),
    ("board = 1", 20, 1, 0),
    ("[[image]]", 20, 2, 0),
    ("[partition]", 20, 3, 0),
    ("components = 1", 20, 4, 0),
    ("[[apps]]", 20, 5, 0),
    ("[board]\nchip = \"z\"\n[image]\nplatform = 1", 20, 2, 0),
    ("[board]\nchip = \"z\"", 22, 1, 0),
    ("[image]\nplatform = \"z\"", 22, 2, 0),
    (
        "[board]\nchip = \"d13x\"\n[image]\nplatform = \"z\"",
        0,
        0,
        0,
    ),
    ("[image]\nmedia_dev_id = 4294967295", 0, 0, 0),
    ("[image]\nmedia_dev_id = 4294967296", 21, 2, 0),
    ("[image]\nmedia_dev_id = -0", 0, 0, 0),
    ("[image]\nmedia_dev_id = -1", 21, 2, 0),
    ("partition = [1]", 23, 3, 0),
    ("[[component]]\nname = \"c\"\n[[component]]", 24, 4, 1),
    ("[[component]]\nkind = \"z\"", 22, 4, 0),
    ("[[component]]\nkind = 1", 20, 4, 0),
    ("[[partition]]\nsize = true", 24, 3, 0),
    ("[[partition]]\nlocked = 1\nname = 1", 20, 3, 0),
    ("[[partition]]\nlocked = 1", 24, 3, 0),
    ("[apps]\nb = 1\n[apps.a]", 23, 5, 1),
    ("[apps.b]\nname = 1\n[apps.a]\nfeatures = [1]", 20, 5, 0),
    ("partition = []\n[[partitions]]", 0, 0, 0),
    ("[apps.a]\nname = 1\n[[component]]", 24, 4, 0),
];

#[test]
fn rules_of_records() {
    let mut host = Host::default();
    for (text, number, section, place) in RULES {
        let want = model::read(text.as_bytes(), b"board");
        let got = want.as_ref().err().copied();
        let refusal = Refusal {
            number,
            section,
            place,
        };
        assert_eq!(got, (number > 0).then_some(refusal), "{text:?}");
        let told = host.judge_fully(text.as_bytes(), b"board", &want);
        told.map_err(|e| panic!("{text:?}: {e}")).ok();
    }
}

// A fault of one field is told where that field stands.
#[test]
fn every_field_in_every_spelling() {
    let mut host = Host::default();
    for base in Draft::all() {
        for edit in edits() {
            let text = edited(&base, &edit);
            let want = model::read(text.as_bytes(), b"board");
            if let (Edit::Field(section, entry, ..), Err(refusal)) = (&edit, &want) {
                let place = (1 + *section as u32, *entry);
                assert_eq!((refusal.section, refusal.place), place, "{text}");
            }
            let told = host.judge(text.as_bytes(), b"board", &want);
            told.map_err(|e| panic!("{text}: port against definition, {e}"))
                .ok();
        }
    }
}

#[test]
fn faults_in_pairs() {
    let (mut host, base, faults) = (Host::default(), Draft::bare(), faults());
    for first in &faults {
        for second in &faults {
            let text = paired(&base, first, second);
            judged(&mut host, text.as_bytes(), b"board");
        }
    }
}

#[test]
fn random_presets() {
    let (mut r, mut host) = (Rng::new(5), Host::default());
    for _ in 0..turns(10_000) {
        let name = name(&mut r);
        judged(&mut host, &text(&mut r), &name);
    }
}

// A component's file gives its filename where it has a name.
#[test]
fn file_names() {
    let mut host = Host::default();
    let all = paths(&["/", ".", "a"], 7);
    assert_eq!(all.len(), 3_280);
    for some in all.chunks(64) {
        let one = |path| format!("[[component]]\nname = \"c\"\nfile = \"{path}\"\n");
        let text: String = some.iter().map(one).collect();
        judged(&mut host, text.as_bytes(), b"board");
    }
}

const FILES: [(&str, Option<&str>); 16] = [
    ("a/.", Some("a")),
    ("a//", Some("a")),
    (".", None),
    ("./", None),
    ("/", None),
    ("", None),
    ("..", None),
    ("a/..", None),
    ("a/../", None),
    ("../.", None),
    ("...", Some("...")),
    ("..a", Some("..a")),
    (".a", Some(".a")),
    ("a.", Some("a.")),
    ("/a/b.c", Some("b.c")),
    ("../a", Some("a")),
];

#[test]
fn file_names_by_definition() {
    for (path, want) in FILES {
        assert_eq!(model::file_name(path), want, "{path}");
    }
}

// The name is the board's where the text has none, `board` where it is no UTF-8, and leaves the
// rooms as they are.
#[test]
fn lent_names() {
    let long = [b'n'; 70_000];
    let broken = [&long[..69_999], b"\xE2"].concat();
    let mut host = Host::default();
    for text in [
        "",
        "[board]\nname = \"own\"",
        "[board]\nname = \"\"",
        "a = 1\n[[b]]\nc = [1]",
    ] {
        for name in NAMES.into_iter().chain([&long[..], &broken]) {
            let want = model::read(text.as_bytes(), name);
            let board = &want.as_ref().expect("accepted").preset.board.name;
            let lent = str::from_utf8(name).unwrap_or("board");
            let own = text.strip_prefix("[board]\nname = \"");
            let own = own.map(|rest| rest.trim_end_matches('"'));
            assert_eq!(board, own.unwrap_or(lent), "{}", name.escape_ascii());
            let told = host.judge_fully(text.as_bytes(), name, &want);
            told.map_err(|e| panic!("{text:?}, {}: {e}", name.escape_ascii()))
                .ok();
        }
    }
}

// 17 goes by the lent sizes alone, before the text and the records; both rooms are zero then.
#[test]
fn lent_rooms() {
    let texts = ["", "a = 1", "]", "board = 1"];
    let stores = [0, 1, STORE_MIN - 1, STORE_MIN, STORE_MIN + 1];
    let trees = [0, SLOT, TREE_MIN - SLOT, TREE_MIN - 1, TREE_MIN, 99_999];
    for (store, tree) in stores.iter().flat_map(|s| trees.map(|t| (*s, t))) {
        for text in texts {
            let (mut held, mut slots) = (vec![0xAA; store], vec![0xAA; tree]);
            let got = records::read(text.as_bytes(), b"", &mut held, &mut slots);
            let small = store < STORE_MIN || tree < TREE_MIN;
            let seventeen = Err(Refusal {
                number: 17,
                section: 0,
                place: 0,
            });
            let want = if small {
                seventeen
            } else {
                model::read(text.as_bytes(), b"")
            };
            assert_eq!(got, outcome(&want), "{text:?}, rooms {store}, {tree}");
            holds(&held, if got.made > 0 { b"a" } else { b"" }).expect("store");
            holds(&slots[SLOT * got.made as usize..], b"").expect("tree room");
        }
    }
}

const WORDS: [&str; 17] = [
    "board",
    "release",
    "unknown",
    "0.0.0",
    "mtd;required",
    "mtd;optional",
    "app",
    "component.bin",
    "d13x",
    "d21x",
    "riscv32imafc-unknown-none-elf",
    "riscv64gc-unknown-none-elf",
    "spi-nor",
    "spi-nand",
    "pbp",
    "raw",
    ".aic",
];

// At the head of what is lent, which is zero after it; nothing where it does not fit.
#[test]
fn fixed_words() {
    for length in 0..=64 {
        let mut room = Room::exact(length);
        for number in (0..40).chain([257, 65_537, u32::MAX]) {
            room.fill(u64::from(number));
            let got = word(number, room.bytes());
            let known = (number as usize).checked_sub(1).and_then(|i| WORDS.get(i));
            let want = known.filter(|w| w.len() <= length).map_or("", |w| w);
            assert_eq!(got, want.len(), "word {number} in {length} bytes");
            let told = holds(room.bytes(), want.as_bytes());
            told.unwrap_or_else(|e| panic!("word {number} in {length} bytes: {e}"));
            assert!(room.kept(), "word {number} in {length} bytes");
        }
    }
}

// Views answer for every room and count, also where no text was read.
#[test]
fn views_of_any_room() {
    any_rooms(9, |rooms| look(rooms, b"\xFF"), nothing).unwrap_or_else(|e| panic!("{e}"));
}

// The room has fewer values: no view finds anything.
fn nothing(rooms: Rooms) -> Result<(), String> {
    fn absent<V: View>(view: V) -> Result<(), String> {
        seen(view)?.map_or(Ok(()), |view| Err(format!("{view:?}")))
    }
    let counts = rooms.counts();
    if counts != records::Counts::default() {
        return Err(format!("{counts:?}"));
    }
    absent(rooms.board(b"board"))?;
    absent(rooms.image())?;
    absent(rooms.partition(0))?;
    absent(rooms.head(0))?;
    absent(rooms.role(0))?;
    absent(rooms.boot(0))?;
    absent(rooms.load(0))?;
    absent(rooms.application(0))?;
    let words = FeatureList {
        kind: 1,
        from: 0,
        len: 3,
    };
    absent(rooms.feature(words, None))
}

fn items_after(rooms: Rooms, list: FeatureList, mut after: Option<(usize, usize)>) -> Vec<String> {
    let mut out = Vec::new();
    // no list here has more items
    for _ in 0..9 {
        let item = rooms.feature(list, after);
        let part = item.from..item.from + item.len;
        if item.found == 1 {
            out.push(String::from_utf8_lossy(&rooms.store[part]).into_owned());
            after = Some((item.from, item.len));
        }
    }
    out
}

// A walk over features in byte order, from its start and from bytes that are none of its items.
#[test]
fn features_in_their_order() {
    let text = b"x = [\"b\", \"\", \"ab\", \"b\", \"a\"]\ny = \"b,,a ab b\"\nz = \"aa\"";
    let (store, tree, made) = filled(text).expect("a tree");
    let rooms = Rooms {
        tree: &tree,
        store: &store,
        made,
    };
    // strings stand before keys: b ab b a x, then the words, y, aa, z
    assert!(store.starts_with(b"babbaxb,,a ab byaaz"));
    let words = FeatureList {
        kind: 1,
        from: 6,
        len: 9,
    };
    // the array is value number 0
    let items = FeatureList {
        kind: 2,
        from: 2,
        len: 0,
    };
    let all = |list, after| items_after(rooms, list, after);
    assert_eq!(all(words, None), ["a", "ab", "b"]);
    assert_eq!(all(items, None), ["", "a", "ab", "b"]);
    // after `aa`, which is no item
    assert_eq!(all(words, Some((16, 2))), ["ab", "b"]);
    assert_eq!(all(items, Some((16, 2))), ["ab", "b"]);
    // after nothing at all
    assert_eq!(all(words, Some((0, 0))), ["a", "ab", "b"]);
    assert_eq!(all(items, Some((0, 0))), ["a", "ab", "b"]);
    for kind in [0, 3, 4, u32::MAX] {
        let list = FeatureList { kind, ..words };
        assert_eq!(
            rooms.feature(list, None),
            FeatureView::default(),
            "kind {kind}"
        );
    }
}

// Entries after the last one, and views of a preset that is refused.
#[test]
fn views_of_a_preset() {
    let text = random::EXAMPLES[1].as_bytes();
    let (store, tree, made) = filled(text).expect("a tree");
    let rooms = Rooms {
        tree: &tree,
        store: &store,
        made,
    };
    let counts = rooms.counts();
    let want = model::read(text, b"").expect("accepted").preset;
    let (p, c, a) = (
        want.partitions.len(),
        want.components.len(),
        want.apps.len(),
    );
    assert_eq!((counts.partitions, counts.components), (p, c));
    assert_eq!(counts.applications, a);
    let got = owned::preset(rooms, b"").expect("records");
    assert_eq!(difference(&got, &want), None);
    for i in [0, 1, 1_000, usize::MAX - 1] {
        assert_eq!(rooms.partition(p.saturating_add(i)).found, 0);
        assert_eq!(rooms.head(c.saturating_add(i)).found, 0);
        assert_eq!(rooms.application(a.saturating_add(i)).found, 0);
    }
}

// Where records are refused, the entries without a fault of their own are still there.
#[test]
fn views_of_a_refused_preset() {
    let text =
        b"[board]\nname = 1\n[[partition]]\n[[partition]]\nname = \"a\"\noffset = 1\nsize = 2\n\
        [[component]]\nname = \"c\"\n[[component]]\nram = true\n[apps.b]\n[apps]\na = 1";
    let (store, tree, made) = filled(text).expect("a tree");
    let rooms = Rooms {
        tree: &tree,
        store: &store,
        made,
    };
    look(rooms, b"board").expect("views");
    let found = [
        rooms.board(b"board").found,
        rooms.partition(0).found,
        rooms.partition(1).found,
        rooms.head(0).found,
        rooms.head(1).found,
        rooms.application(0).found,
        rooms.application(1).found,
    ];
    assert_eq!(found, [0, 0, 1, 1, 0, 0, 1]);
}
