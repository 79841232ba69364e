//! Whole texts against the definitions alone; these tests need no original.
use port::document::{self, Outcome, ROOT, child, find};
use port::text::TEXT_MAX;
use port::value::{SLOT, STORE_MIN, TREE_MIN};
use replay::generators::document as random;
use replay::generators::random::{Rng, turns};
use replay::generators::tree;
use replay::harness::ask::document::Host;
use replay::harness::rooms::holds;
use replay::model::document as model;

fn refused(number: u32, place: u32) -> Outcome {
    let (section, made) = (0, 0);
    Outcome {
        number,
        section,
        place,
        made,
    }
}

fn judged(host: &mut Host, text: &[u8]) {
    let told = host.judge(text, &model::read(text));
    told.map_err(|e| panic!("{}: port against definition, {e}", text.escape_ascii()))
        .ok();
}

#[test]
fn size_of_a_value() {
    assert_eq!(document::value_size() as usize, SLOT);
}

// Text, refusal number (0: accepted), its place or else the count of values.
const RULES: [(&str, u32, u32); 24] = [
    ("", 0, 0),
    ("x\n]", 3, 2),
    ("x\na = 1\n]", 3, 3),
    ("a = [\n]]", 3, 1),
    ("\n# c\n\na = [1,\n\n2", 4, 4),
    ("a = 1\n\nx", 5, 3),
    ("= x", 6, 1),
    ("a. = x", 12, 1),
    ("\"a.b\" = 1", 9, 1),
    ("[[a]]\n[a]", 0, 3),
    ("a = 1\na.b = 2", 0, 3),
    ("[[a]]\n[[a.b]]", 0, 5),
    ("a = [1]\n[[a]]\nb = 2", 0, 4),
    ("a = 1\n[[a]]", 13, 2),
    ("[a]\n\n[[a]]", 13, 3),
    ("a.b = [1]", 0, 3),
    ("[a]\n[a]\n[a]", 0, 1),
    ("[a]=[1]", 0, 1),
    ("[a] = 1", 0, 1),
    ("[[a] ]", 5, 1),
    ("a = [1] 2", 11, 1),
    ("a = \"x\ny\" # z", 10, 1),
    ("a = \"x\\\n\"", 8, 1),
    ("a = [\n1,\nx\n]", 12, 1),
];

#[test]
fn rules_of_whole_texts() {
    let mut host = Host::default();
    for (text, number, count) in RULES {
        let want = model::read(text.as_bytes());
        let got = match &want {
            Ok(answer) => (0, answer.made as u32),
            Err((number, place)) => (*number, *place as u32),
        };
        assert_eq!(got, (number, count), "{text:?}");
        let told = host.judge_fully(text.as_bytes(), &want);
        told.map_err(|e| panic!("{text:?}: {e}")).ok();
    }
}

#[test]
fn all_texts_up_to_four_characters() {
    let letters = b"a\"\\[]=.,#\n1 ";
    let (mut host, mut layer) = (Host::default(), vec![Vec::new()]);
    for _ in 0..=4 {
        layer.iter().for_each(|t| judged(&mut host, t));
        let longer = |t: &Vec<u8>| letters.map(|b| [&t[..], &[b]].concat());
        layer = layer.iter().flat_map(longer).collect();
    }
}

#[test]
fn random_presets() {
    let (mut r, mut host) = (Rng::new(4), Host::default());
    for _ in 0..turns(10_000) {
        judged(&mut host, &random::text(&mut r));
    }
}

// 17 goes by the lent sizes alone, before 1 and 2; both rooms are zero then, however short.
#[test]
fn lent_rooms() {
    let long = vec![b'a'; TEXT_MAX + 1];
    let texts = [b"".as_slice(), b"a = 1", b"]", b"\xFF", &long];
    let numbers = [(0, 0), (0, 0), (3, 1), (2, 0), (1, 0)];
    let stores = [0, 1, 7, STORE_MIN - 1, STORE_MIN, STORE_MIN + 1, 70_001];
    let trees = [0, SLOT, TREE_MIN - SLOT, TREE_MIN - 1, TREE_MIN, 99_999];
    for (store, tree) in stores.iter().flat_map(|s| trees.map(|t| (*s, t))) {
        for (text, (number, place)) in texts.iter().zip(numbers) {
            let (mut held, mut slots) = (vec![0xAA; store], vec![0xAA; tree]);
            let got = document::read(text, &mut held, &mut slots);
            let small = store < STORE_MIN || tree < TREE_MIN;
            let want = if small {
                refused(17, 0)
            } else {
                refused(number, place)
            };
            let made = got.made;
            assert_eq!(got, Outcome { made, ..want }, "rooms {store}, {tree}");
            let some = !small && text.starts_with(b"a =");
            assert_eq!(made, u32::from(some), "rooms {store}, {tree}");
            holds(&held, if some { b"a" } else { b"" }).expect("store");
            holds(&slots[SLOT * made as usize..], b"").expect("tree room");
        }
    }
}

// Views answer for every room, count and parent, also where no text was read.
#[test]
fn views_of_any_room() {
    let (noise, store) = (vec![0xFF; 100 * SLOT], vec![0xFF; STORE_MIN]);
    for room in [0, 1, SLOT - 1, SLOT, 2 * SLOT + 1, 100 * SLOT] {
        let (tree, slots) = (&noise[..room], room / SLOT);
        for made in [0, 1, slots, slots + 1, 2_048, usize::MAX / SLOT, usize::MAX] {
            let fits = made <= slots && made > 0;
            for from in [0, 1, made / 2, made, usize::MAX] {
                let want = (fits && from < made).then_some(from);
                assert_eq!(
                    child(tree, made, 0xFFFF, from),
                    want,
                    "{room} {made} {from}"
                );
                assert_eq!(child(tree, made, ROOT, from), None);
            }
            // a key of 65,535 bytes from 65,535 on is in no store
            for key in [b"".as_slice(), b"a", &store] {
                assert_eq!(find(tree, &store, made, 0xFFFF, key), None, "{room} {made}");
            }
        }
    }
}

#[test]
fn views_of_a_preset() {
    let (mut store, mut tree) = (vec![0xAA; STORE_MIN], vec![0xAA; TREE_MIN]);
    let text = b"a = 1\nb = [2, 3]\na = 4\n[c]\na = 5\n";
    let got = document::read(text, &mut store, &mut tree);
    assert_eq!((got.number, got.made), (0, 7));
    let child = |parent, from| child(&tree, 7, parent, from);
    let find = |parent, key| find(&tree, &store, 7, parent, key);
    // 0 the older a, 1 to 3 b and its items, 4 the newer a, 5 the table c, 6 its a
    let steps = [
        (0, Some(0)),
        (1, Some(1)),
        (2, Some(4)),
        (5, Some(5)),
        (6, None),
    ];
    for (from, n) in steps {
        assert_eq!(child(ROOT, from), n, "from {from}");
    }
    assert_eq!(
        (child(3, 0), child(3, 3), child(3, 4)),
        (Some(2), Some(3), None)
    );
    assert_eq!(
        (child(7, 0), child(7, 7), child(0, 0)),
        (Some(6), None, None)
    );
    assert_eq!((find(ROOT, b"a"), find(ROOT, b"b")), (Some(4), Some(1)));
    assert_eq!((find(ROOT, b"c"), find(7, b"a")), (Some(5), Some(6)));
    assert_eq!(
        (find(ROOT, b""), find(ROOT, b"ab"), find(7, b"c")),
        (None, None, None)
    );
}

// A tree that is written again is read as the same, of no more values.
#[test]
fn trees_as_texts() {
    let (mut r, mut count) = (Rng::new(8), 0);
    let fixed =
        ["a = [1, [2]]\n[[a]]\nb.c = [\"x\"]\nb.d = \"\\r\\n#\"\n[[a]]\n[\"e ]\".f]\n[g]\n"];
    let deep = format!("[a{}]\nb{} = 1", ".a".repeat(15), ".b".repeat(15));
    let fixed = fixed.into_iter().chain([&*deep]);
    let fixed = fixed.map(|text| text.as_bytes().to_vec());
    let random = (0..turns(10_000)).map(|_| random::text(&mut r));
    for text in fixed.chain(random) {
        let Ok(want) = model::read(&text) else {
            continue;
        };
        let again = tree::text(&want.root);
        let got = model::read(again.as_bytes()).unwrap_or_else(|e| panic!("{again}: {e:?}"));
        assert_eq!(got.root, want.root, "{again}");
        assert!(got.made <= want.made, "{again}");
        count += 1;
    }
    assert!(count > turns(2_000), "{count}");
}
