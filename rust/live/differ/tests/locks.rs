//! Texts with locks are left out of the comparison with the original, and compared without them.
use differ::locks::unlocked;
use differ::records::compare::Judge;
use differ::{listing, plan, validate};
use replay::generators::locks::{CORNERS, Corner, ELSEWHERE};
use replay::generators::tree;
use replay::harness::met::Met;

// All corners through one judge, each with its answer to be seen in `replay`.
fn judged(mut check: impl FnMut(&[u8]) -> Met) {
    let mut all = |corners: &[Corner]| {
        let each = corners.iter();
        let met = each.map(|(pieces, _)| check(pieces.concat().as_bytes()));
        met.last().expect("some").left_out()
    };
    assert_eq!(all(CORNERS), CORNERS.len(), "all have locks");
    assert_eq!(all(ELSEWHERE), CORNERS.len(), "none has");
}

#[test]
fn corners() {
    for mut judge in [
        Judge::records(),
        validate::compare::judge(),
        plan::compare::judge(),
    ] {
        judged(|text| {
            judge.check(text);
            judge.met.clone()
        });
    }
    let mut judge = listing::compare::Judge::default();
    judged(|text| {
        judge.check(text);
        judge.met.clone()
    });
}

// What goes by the tree: keys of the list that is read, not bytes.
const WITHOUT: [(&str, Option<&str>); 12] = [
    ("", None),
    ("[[partition]]\nname = \"locked\" # locked = true", None),
    ("[[partition]]\nname = \"\nlocked = true\"", None),
    ("[[partition]]\nx.locked = true", None),
    ("[partition]\nlocked = true", None),
    ("[[partition]]\n[[partitions]]\nlocked = 1", None),
    ("partition = 1\n[[partitions]]\nlocked = 1", None),
    ("[[partition]]\nlocked = true\nx", None),
    ("[[partition]]\nlocked = true", Some("[[partition]]\n")),
    (
        "[[partitions]]\nlocked.x.y = 1\na.b = 1",
        Some("[[partitions]]\na.b = 1\n"),
    ),
    (
        "partition = [1]\n[[\"partition\"]]\n \"locked\"\t= [\n1]\n[[partition]]\na = \"\"\n[[partitions]]\nlocked = 1",
        Some(
            "partition = [1]\n[[partition]]\n[[partition]]\na = \"\"\n[[partitions]]\nlocked = 1\n",
        ),
    ),
    (
        "[[partition]]\nlocked = 1\n[b]\nlocked = 1\n[[partition]]\nlocked = 2",
        Some("[b]\nlocked = 1\n[[partition]]\n[[partition]]\n"),
    ),
];

#[test]
fn texts_without_locks() {
    for (text, want) in WITHOUT {
        let got = unlocked(text.as_bytes()).map(|root| tree::text(&root));
        assert_eq!(got.as_deref(), want, "{text:?}");
    }
}
