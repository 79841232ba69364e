//! Planning against the definitions alone; these tests need no original.
use port::plans::{PlanCounts, Planned, Selection, SourceView, plan};
use port::records::{Bytes, Rooms};
use port::value::{SLOT, STORE_MIN, TREE_MIN};
use port::views::seen;
use preset::{BuildRequirement, Chip, ImagePlan, Source, owned};
use replay::generators;
use replay::generators::plan::cases::CASES;
use replay::generators::plan::keys::undeclared;
use replay::generators::plan::random;
use replay::generators::random::{Rng, turns};
use replay::generators::records::any::{any_rooms, damaged, filled};
use replay::generators::records::random::{EXAMPLES, name};
use replay::generators::records::spelling::paths;
use replay::generators::validate::plain::{nth_app, plain};
use replay::generators::validate::spelled;
use replay::harness::ask::plan::{PLAN, difference, judge, look};
use replay::harness::ask::records::Host;
use replay::harness::rooms::holds;
use replay::model::answer::records::{Refusal, outcome};
use replay::model::plan as model;
use replay::model::records::written;
use replay::model::validate;

const BOOT_CHAIN: Selection = Selection { app: 0, key: b"" };

fn judged(host: &mut Host, text: &[u8], name: &[u8]) {
    let told = judge(host, text, name, &validate::read(text, name));
    told.unwrap_or_else(|e| panic!("{}: port against definition, {e}", text.escape_ascii()));
}

// Two partitions, a component for each, one for none, and an application.
const A: &str = "[[partition]]\nname = \"a\"\noffset = 0\nsize = 4096\n";
const B: &str = "[[partition]]\nname = \"b\"\noffset = 4096\nsize = 4096\n";
const X: &str = "[[component]]\nname = \"x\"\npackage = \"p\"\nkind = \"app\"\npartition = \"a\"\n";
const Y: &str = "[[component]]\nname = \"y\"\npackage = \"q\"\npartition = \"b\"\n";
const U: &str = "[[component]]\nname = \"u\"\npackage = \"w\"\nupdater = true\nram = 0\n";
const K: &str = "[apps.k]\npartition = \"b\"\n";
const F: &str = "[[component]]\nname = \"f\"\npartition = \"a\"\nkind = \"app\"\nfile = ";

// A preset in pieces and a key; its components with the partition of each, its builds with the bin of
// each and its stem, or its refusal.
type Rule = (&'static [&'static str], Option<&'static str>, &'static str);

const RULES: [Rule; 26] = [
    (&[A], None, "refused 50 4 0"),
    (&[A], Some("k"), "refused 50 4 0"),
    (&[A, X, "partition = \"z\"\n"], Some("z"), "refused 58 4 0"),
    (&[A, X], None, "x@a / p:p / p"),
    (&[A, X], Some("k"), "refused 80 5 0"),
    (&[A, B, X, K], Some(""), "refused 80 5 0"),
    (&[A, B, X, K], Some("K"), "refused 80 5 0"),
    (&[A, B, X, K], Some("k "), "refused 80 5 0"),
    (&[A, B, X, K, "name = \"n\"\n"], Some("n"), "refused 80 5 0"),
    (&[A, B, X, K, "name = \"x\"\n"], Some("k"), "refused 81 5 0"),
    (&[A, B, X, K, "name = \"x\"\n"], None, "x@a / p:p / p"),
    (
        &[A, B, X, K, "name = \"x\"\n[apps.a]\npartition = \"a\"\n"],
        Some("k"),
        "refused 81 5 1",
    ),
    (
        &[A, B, X, K, "name = \"x\"\n[apps.a]\npartition = \"a\"\n"],
        Some("a"),
        "a@a x@a / p:p a:a / a",
    ),
    (&[A, B, X, K], Some("k"), "k@b x@a / p:p k:k / k"),
    (
        &[A, B, U, X, Y, K],
        Some("k"),
        "u k@b x@a y@b / w:w p:p q:q k:k / k",
    ),
    (&[A, B, X, U, K], Some("k"), "k@b x@a u / p:p w:w k:k / k"),
    (
        &[A, B, X, "pbp_package = \"q\"\n", Y, "bin = \"late\"\n"],
        None,
        "x@a+q:q y@b / p:p q:q / p",
    ),
    (
        &[
            A,
            B,
            X,
            "bin = \"c\"\n",
            Y,
            "package = \"p\"\nbin = \"d\"\n",
        ],
        None,
        "x@a y@b / p:c / p",
    ),
    (
        &[A, B, X, "bin = \"c\"\n[apps.p]\npartition = \"b\"\n"],
        Some("p"),
        "p@b x@a / p:c / p",
    ),
    (
        &[A, X, "pbp = \"d/e\"\nbin = \"c\"\n"],
        None,
        "x@a+d/e / p:c / p",
    ),
    (&[A, X, "kind = \"raw\"\n"], None, "x@a / p:p / board"),
    (
        &[
            "[board]\nname = \"n\"\n",
            A,
            B,
            X,
            "kind = \"pbp\"\n",
            Y,
            "kind = \"app\"\n",
        ],
        None,
        "x@a y@b / p:p q:q / q",
    ),
    (&[A, F, "\"d/x.tar.gz\"\n"], None, "f@a /  / x.tar"),
    (&[A, F, "\"d/x.y\"\nbin = \"c\"\n"], None, "f@a /  / c"),
    (&[A, F, "\"d/..\"\n", X], None, "f@a x@a / p:p / board"),
    (
        &[
            A,
            "[[partition]]\nname = \"a;b\"\noffset = 4096\nsize = 4096\n",
            X,
            "partition = \" a ;z\"\n",
            K,
            "partition = \"a;b\"\n",
        ],
        Some("k"),
        "k@a x@a / p:p k:k / k",
    ),
];

fn said(p: &ImagePlan) -> String {
    let build = |b: &BuildRequirement| format!("{}:{}", b.package, b.bin);
    let pbp = |s: &Source| match s {
        Source::Package { package, bin, .. } => format!("+{package}:{bin}"),
        Source::File(path) => format!("+{}", written(path)),
    };
    let components = p.components.iter().map(|c| {
        let at = c.partition.as_ref().map(|p| format!("@{}", p.name));
        let pbp = c.pbp_source.as_ref().map(pbp);
        c.spec.name.clone() + &at.unwrap_or_default() + &pbp.unwrap_or_default()
    });
    let components = components.collect::<Vec<_>>().join(" ");
    let builds: Vec<_> = p.required_builds.iter().map(build).collect();
    format!("{components} / {} / {}", builds.join(" "), p.stem)
}

#[test]
fn rules_of_planning() {
    let mut host = Host::new(PLAN);
    for (pieces, key, want) in RULES {
        let (text, key) = (pieces.concat(), key.map(str::as_bytes));
        let read = model::read(text.as_bytes(), b"board", key);
        let got = match &read {
            Ok(answer) => said(&model::plan(&answer.preset, key).expect("planned")),
            Err(e) => format!("refused {} {} {}", e.number, e.section, e.place),
        };
        assert_eq!(got, want, "{text}");
        host.selected = key.map(<[u8]>::to_vec);
        let told = host.judge_fully(text.as_bytes(), b"board", &read);
        told.map_err(|e| panic!("{text}: port against definition, {e}"))
            .ok();
    }
}

const STEMS: [(&str, Option<&str>); 18] = [
    ("a/.b", Some(".b")),
    ("x.tar.gz", Some("x.tar")),
    ("..", None),
    (".", None),
    ("", None),
    ("/", None),
    ("a/..", None),
    ("a/../", None),
    ("...", Some("..")),
    ("..a", Some(".")),
    (".a.b", Some(".a")),
    ("a.", Some("a")),
    ("a..", Some("a.")),
    ("a.b/", Some("a")),
    ("a.b/.", Some("a")),
    ("a.b/c", Some("c")),
    ("/a", Some("a")),
    ("é.漢", Some("é")),
];

#[test]
fn file_stems_by_definition() {
    for (path, want) in STEMS {
        assert_eq!(model::file_stem(path), want, "{path}");
    }
}

#[test]
fn file_stems() {
    let mut host = Host::new(PLAN);
    for path in paths(&["/", ".", "a"], 7) {
        let text = format!("{A}{F}\"{path}\"\n");
        judged(&mut host, text.as_bytes(), b"board");
    }
}

#[test]
fn changes_break_no_rule() {
    let mut r = Rng::new(2);
    for _ in 0..turns(5_000) {
        let preset = random::preset(&mut r);
        assert_eq!(validate::refusal(&preset), None, "{preset:?}");
    }
}

#[test]
fn around_every_boundary() {
    let mut host = Host::new(PLAN);
    spelled::each(&CASES, 5, |text| judged(&mut host, text, b"board"));
}

#[test]
fn random_presets() {
    let (mut r, mut host) = (Rng::new(6), Host::new(PLAN));
    for _ in 0..turns(5_000) {
        let name = name(&mut r);
        judged(&mut host, &random::text(&mut r), &name);
    }
}

// Every application of a full list, and what is before and after all of them.
#[test]
fn every_key() {
    let (mut r, mut host) = (Rng::new(7), Host::new(PLAN));
    let mut preset = plain(Chip::D21x, [2, 2, 64]);
    nth_app(&mut preset, 63).name = preset.components[1].name.clone();
    let text = spelled::text(&mut r, &preset);
    let declared = preset.apps.keys().map(|key| key.clone().into_bytes());
    // as long as another one and 2^16 bytes more
    let long = [b"a00", &[b'0'; 65_536][..]].concat();
    let others = undeclared(&preset).into_iter().chain([long]);
    for key in declared.chain(others) {
        let want = model::read(text.as_bytes(), b"board", Some(&key));
        let about = key.escape_ascii().to_string();
        host.selected = Some(key);
        let told = host.judge(text.as_bytes(), b"board", &want);
        told.map_err(|e| panic!("{about}: {e}")).ok();
    }
}

fn rooms() -> (Vec<u8>, Vec<u8>) {
    (vec![0xAA; STORE_MIN], vec![0xAA; TREE_MIN])
}

// Where the number is 0 the key is not looked at; which other number it is does not matter.
#[test]
fn numbers_of_selections() {
    let (text, (mut store, mut tree)) = (EXAMPLES[0].as_bytes(), rooms());
    let preset = validate::read(text, b"").expect("accepted").preset;
    for app in [0, 1, 2, 3, 255, 256, 65_536, 1 << 31, u32::MAX] {
        for key in [&b"desk"[..], b"", b"\xFF", b"des"] {
            let selection = Selection { app, key };
            let got = plan(text, b"", selection, &mut store, &mut tree);
            let want = model::plan(&preset, (app > 0).then_some(key));
            let number = want.as_ref().err().map_or(0, |e| e.number);
            assert_eq!(got.number, number, "{selection:?}");
            let rooms = Rooms {
                tree: &tree,
                store: &store,
                made: got.made as usize,
            };
            if let Ok(want) = want {
                let got = owned::plan(rooms, b"", selection).expect("a plan");
                assert_eq!(difference(&got, &want), None, "{selection:?}");
            }
        }
    }
}

// 17 goes by the lent sizes alone, before the text and the selection; both rooms are zero then.
#[test]
fn lent_rooms() {
    let texts = ["", "]", EXAMPLES[0]];
    let stores = [0, 1, STORE_MIN - 1, STORE_MIN, STORE_MIN + 1];
    let trees = [0, SLOT, TREE_MIN - 1, TREE_MIN, 99_999];
    let seventeen = Err(Refusal {
        number: 17,
        section: 0,
        place: 0,
    });
    for (store, tree) in stores.iter().flat_map(|s| trees.map(|t| (*s, t))) {
        for (text, key) in texts.iter().flat_map(|t| [(t, None), (t, Some(&b"x"[..]))]) {
            let (mut held, mut slots) = (vec![0xAA; store], vec![0xAA; tree]);
            let got = plan(text.as_bytes(), b"", key.into(), &mut held, &mut slots);
            let want = if store < STORE_MIN || tree < TREE_MIN {
                &seventeen
            } else {
                &model::read(text.as_bytes(), b"", key)
            };
            assert_eq!(got, outcome(want), "{text:?}, rooms {store}, {tree}");
            if want.is_err() {
                holds(&held, b"").expect("store");
                holds(&slots, b"").expect("tree room");
            }
        }
    }
}

// The room has fewer values: no view finds anything.
fn nothing(rooms: Rooms) -> Result<(), String> {
    for selection in [BOOT_CHAIN, Selection { app: 1, key: b"a" }] {
        let planned = Planned { rooms, selection };
        let found = [
            seen(planned.head(0))?.is_some(),
            seen(planned.role(0))?.is_some(),
            seen(planned.boot(0))?.is_some(),
            seen(planned.load(0))?.is_some(),
            seen(planned.partition(0))?.is_some(),
            seen(planned.build(0))?.is_some(),
            planned.source(0) != SourceView::default(),
            planned.pbp(0) != SourceView::default(),
            planned.counts() != PlanCounts::default(),
            planned.stem(b"board") != Bytes::default(),
        ];
        if found.contains(&true) {
            return Err(format!("{selection:?}: {found:?}"));
        }
    }
    Ok(())
}

// Views answer for every room and count, also where no text was read.
#[test]
fn views_of_any_room() {
    let looked = |rooms: Rooms| {
        let keys = [&b""[..], b"a", b"\xFF"];
        look(rooms, b"\xFF", BOOT_CHAIN)?;
        keys.iter()
            .try_for_each(|key| look(rooms, b"", Some(*key).into()))
    };
    any_rooms(10, looked, nothing).unwrap_or_else(|e| panic!("{e}"));
}

// Every key that a table of applications in the rooms has, the boot chain and others.
fn look_at_all(rooms: Rooms) -> Result<(), String> {
    look(rooms, b"board", BOOT_CHAIN)?;
    let keys = (0..rooms.counts().applications.min(3)).map(|i| {
        let key = rooms.application(i).package;
        let end = key.from.saturating_add(key.len);
        rooms.store.get(key.from..end).unwrap_or(b"p0")
    });
    let mut keys = keys.chain([&b"p0"[..], b"p1"]);
    keys.try_for_each(|key| look(rooms, b"board", Some(key).into()))
}

// Where records are refused, or rules broken, or lists too long.
#[test]
fn views_of_refused_presets() {
    let mut r = Rng::new(11);
    for i in 0..turns(3_000) {
        let text = match i % 3 {
            0 => generators::records::random::text(&mut r),
            1 => generators::validate::random::text(&mut r),
            _ => random::text(&mut r),
        };
        if let Some((store, tree, made)) = filled(&text) {
            let (tree, store) = (&tree[..], &store[..]);
            let told = look_at_all(Rooms { tree, store, made });
            told.unwrap_or_else(|e| panic!("{}: {e}", text.escape_ascii()));
        }
    }
}

// Rooms of an example with other bytes in them.
#[test]
fn views_of_damaged_rooms() {
    let mut r = Rng::new(12);
    for i in 0..turns(3_000) {
        let text = EXAMPLES[i % EXAMPLES.len()].as_bytes();
        let (mut store, mut tree, made) = filled(text).expect("a tree");
        damaged(&mut r, &mut tree[..made * SLOT]);
        damaged(&mut r, &mut store[..4_096]);
        let lent = [STORE_MIN, STORE_MIN, 100, 1_000][r.below(4)];
        let (tree, store) = (&tree[..], &store[..lent]);
        let told = look_at_all(Rooms { tree, store, made });
        told.unwrap_or_else(|e| panic!("preset {}, round {i}: {e}", i % 3));
    }
}

// Nothing stands after the last component and the last build.
#[test]
fn views_after_the_last() {
    let (text, (mut store, mut tree)) = (EXAMPLES[1].as_bytes(), rooms());
    let preset = validate::read(text, b"").expect("accepted").preset;
    for key in [None, Some(&b"profile-spot"[..])] {
        let got = plan(text, b"", key.into(), &mut store, &mut tree);
        let want = model::plan(&preset, key).expect("planned");
        let rooms = Rooms {
            tree: &tree,
            store: &store,
            made: got.made as usize,
        };
        let selection = key.into();
        let planned = Planned { rooms, selection };
        let (c, b) = (want.components.len(), want.required_builds.len());
        let (components, builds) = (c, b);
        assert_eq!(planned.counts(), PlanCounts { components, builds });
        for i in [0, 1, 63, 1_000, usize::MAX / 2, usize::MAX - c] {
            assert_eq!(planned.head(c + i).found, 0);
            assert_eq!(planned.partition(c + i).found, 0);
            assert_eq!(planned.source(c + i), SourceView::default());
            assert_eq!(planned.build(b.saturating_add(i)).found, 0);
        }
    }
}
