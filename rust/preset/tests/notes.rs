//! Slips that the rules accept: each is noted where it stands with what it is held against, and nothing else is.
use preset::notes::{MOST, More, Note, Notes, Sort};
use preset::{Fault, Preset, explain};
use replay::generators::mixed;
use replay::generators::random::{Rng, turns};
use std::collections::BTreeMap;
use std::process::Command;

const EXAMPLE: &str = include_str!("../../../presets/example.toml");
const STAGE: &str = include_str!("../../../presets/stage-d13x.toml");
const TOUR: &str = include_str!("../../../presets/tour-d21x.toml");
const CALIB: &str = include_str!("../../../presets/calib-d13x.toml");

// Each as `LINE: what is said`.
fn told(text: impl AsRef<[u8]>) -> Vec<String> {
    let found = Notes::of(text.as_ref(), b"board");
    assert_eq!((found.count(), found.more), (found.told.len(), Vec::new()));
    found.told.iter().map(shown).collect()
}

fn shown(note: &Note) -> String {
    let line = note.line.map_or("?".into(), |line| line.to_string());
    format!("{line}: {note}")
}

fn nothing() -> Vec<String> {
    Vec::new()
}

#[test]
fn presets_have_few() {
    assert_eq!(told(EXAMPLE), nothing());
    assert_eq!(told(STAGE), nothing());
    assert_eq!(told(CALIB), nothing());
    let shared = "131: application 0 \"fallback\": it shares partition \"fallback\" with \
                  component 2 \"recovery\" (line 88)";
    assert_eq!(told(TOUR), [shared]);
}

// What the documents show as accepted; some of it has no partition to spare.
#[test]
fn mended_examples_only_share_partitions() {
    let mut met = 0;
    for entry in explain::entries() {
        let Some(mended) = entry.mended else { continue };
        if Preset::validate(mended.as_bytes(), b"board").is_ok() {
            let mut found = Notes::of(mended.as_bytes(), b"board").told.into_iter();
            let other = found.find(|note| note.sort != Sort::Shared);
            assert_eq!(other, None, "{}", entry.number);
            met += 1;
        }
    }
    assert!(met > 25, "{met}");
}

// What is refused for a field or a rule is not refused for a slip.
#[test]
fn refused_examples_have_none() {
    let mut met = 0;
    let entries = explain::entries().into_iter();
    for entry in entries.filter(|entry| (20..80).contains(&entry.number)) {
        for example in entry.examples.iter().filter(|e| e.tag.is_empty()) {
            assert_eq!(told(example.preset), nothing(), "{}", entry.number);
            met += 1;
        }
    }
    assert!(met > 40, "{met}");
}

#[test]
fn keys_assigned_again() {
    let text = "[board]\nchip = \"d13x\"\nname = \"a\"\n\nchip = \"d21x\"\n\
                [image]\nmedia_dev_id = 10\napp = \"x\"\nmedia_dev_id = -1\n\
                [[component]]\nupdater = true\nkind = \"app\"\nupdater = false\n\
                features = [\n \"a\",\n]\nram = 1\nfeatures = \"a\"\n";
    let want = [
        "5: board: key \"chip\" is assigned again: \"d21x\" (line 5) counts, not \"d13x\" (line 2)",
        "9: image: key \"media_dev_id\" is assigned again: -1 (line 9) counts, not 10 (line 7)",
        "13: component 0: key \"updater\" is assigned again: false (line 13) counts, not true (line 11)",
        "18: component 0: key \"features\" is assigned again: \"a\" (line 18) counts, not [\"a\"] (line 14)",
    ];
    assert_eq!(told(text), want);
}

// Each time is noted, and which line counts in the end.
#[test]
fn keys_assigned_three_times() {
    let text = "[board]\nname = \"a\"\nname = \"b\"\nchip = \"d13x\"\nname = \"c\"\n";
    let want = [
        "3: board: key \"name\" is assigned again: \"b\" (line 3) replaces \"a\" (line 2), and line 5 counts",
        "5: board: key \"name\" is assigned again: is a header lost before line 5? \
         \"c\" (line 5) counts, not \"b\" (line 3)",
    ];
    assert_eq!(told(text), want);
}

// Values are the same however they are written, and where they are cut they need not be.
#[test]
fn the_same_value_again() {
    let list = "features = [\"a\", 1, [true]]\n";
    let text = format!(
        "[apps.k]\n{list}load_address = 16\nload_address = 0x1_0\nfilename = \"x\"\n{list}"
    );
    let want = [
        "4: application 0 \"k\": key \"load_address\" is assigned again: 0x1_0 (line 4) counts, \
         the same as before (line 3)",
        "6: application 0 \"k\": key \"features\" is assigned again: [\"a\", 1, [true]] (line 6) counts, \
         the same as before (line 2)",
    ];
    assert_eq!(told(text), want);
    let long = "x".repeat(500);
    let found = told(format!("[board]\nname = \"{long}a\"\nname = \"{long}b\"\n"));
    assert!(found[0].contains("(line 3) counts, not \"xxx"), "{found:?}");
    assert!(found[0].chars().count() < 500);
}

// Whatever the first lines of the lost entry are; several lost headers are several notes.
#[test]
fn lost_headers() {
    let entry = |name: &str| format!("name = \"{name}\"\noffset = 0\nsize = 1\n\n");
    let text = format!("[[partition]]\n{}{}{}", entry("a"), entry("b"), entry("c"));
    let want = [
        "6: partition 0 \"c\": key \"name\" is assigned again, and 2 more up to line 8: is a header such as \
         [[partition]] lost before line 6? name: \"b\" (line 6) replaces \"a\" (line 2), and line 10 counts; \
         offset: 0 (line 7) replaces 0 (line 3), and line 11 counts; \
         size: 1 (line 8) replaces 1 (line 4), and line 12 counts",
        "10: partition 0 \"c\": key \"name\" is assigned again, and 2 more up to line 12: is a header such as \
         [[partition]] lost before line 10? name: \"c\" (line 10) counts, not \"b\" (line 6); \
         offset: 0 (line 11) counts, the same as before (line 7); \
         size: 1 (line 12) counts, the same as before (line 8)",
    ];
    assert_eq!(told(&text), want);
    assert_eq!(
        told(text.replace("partition", "partitions"))[1],
        want[1].replace("[[partition]]", "[[partitions]]")
    );
    let text = "[[component]]\nname = \"a\"\nkind = \"raw\"\nattr = \"x\"\n\
                kind = \"app\"\nfile = \"f\"\nname = \"b\"\npartition = \"p\"\nattr = \"y\"\n";
    let want = [
        "5: component 0 \"b\": key \"kind\" is assigned again: \"app\" (line 5) counts, not \"raw\" (line 3)",
        "7: component 0 \"b\": key \"name\" is assigned again, and 1 more up to line 9: is a header \
         such as [[component]] lost before line 7? name: \"b\" (line 7) counts, not \"a\" (line 2); \
         attr: \"y\" (line 9) counts, not \"x\" (line 4)",
    ];
    assert_eq!(told(text), want);
    let text = "[apps.k]\nname = \"a\"\nfilename = \"f\"\nname = \"b\"\n";
    let want = "4: application 0 \"k\": key \"name\" is assigned again: is a header such as [apps.KEY] lost \
                before line 4? \"b\" (line 4) counts, not \"a\" (line 2)";
    assert_eq!(told(text), [want]);
}

// Without a name among them it may be either; the same values are only doubled.
#[test]
fn doubled_lines() {
    let text = "[[partition]]\noffset = 1\nsize = 2\noffset = 3\nsize = 4\n";
    let want = "4: partition 0: key \"offset\" is assigned again, and 1 more up to line 5: are lines there twice, \
                or is a header such as [[partition]] lost before line 4? offset: 3 (line 4) counts, not 1 (line 2); \
                size: 4 (line 5) counts, not 2 (line 3)";
    assert_eq!(told(text), [want]);
    let text = text.replace("3\nsize = 4", "1\nsize = 2");
    let want = "4: partition 0: key \"offset\" is assigned again, and 1 more up to line 5: are lines there twice? \
                offset: 1 (line 4) counts, the same as before (line 2); \
                size: 2 (line 5) counts, the same as before (line 3)";
    assert_eq!(told(&text), [want]);
    let text =
        "[[partition]]\noffset = 1\noffset = 2\nsize = 3\nsize = 4\nname = \"a\"\nname = \"b\"\n";
    assert_eq!(told(text).len(), 3);
    assert!(told(text).iter().all(|note| !note.contains('?')), "{text}");
}

#[test]
fn headers_that_come_again() {
    let text = "[board]\nname = \"a\"\n[image]\n[board]\nchip = \"d13x\"\n[apps.k]\nname = \"a\"\n\
                [apps.\"k\"]\nfilename = \"f\"\n[ board ]\nname = \"b\"\nchip = \"d13x\"\n";
    let want = [
        "4: [board] comes again and goes on with the table of line 1",
        "8: [apps.k] comes again and goes on with the table of line 6: is another [apps.KEY] meant?",
        "10: [board] comes again and goes on with the table of line 1; key \"name\" is assigned again, \
         and 1 more up to line 12: name: \"b\" (line 11) counts, not \"a\" (line 2); \
         chip: \"d13x\" (line 12) counts, the same as before (line 5)",
    ];
    assert_eq!(told(text), want);
    // what comes again once more after it is another slip
    let text = "[board]\nname = \"a\"\n[board]\nname = \"b\"\ntarget = \"t\"\nname = \"c\"\n";
    let want = [
        "3: [board] comes again and goes on with the table of line 1; key \"name\" is assigned again: \
         \"b\" (line 4) replaces \"a\" (line 2), and line 6 counts",
        "6: board: key \"name\" is assigned again: is a header lost before line 6? \
         \"c\" (line 6) counts, not \"b\" (line 4)",
    ];
    assert_eq!(told(text), want);
}

// One pair of brackets where two are meant.
#[test]
fn lists_that_are_replaced() {
    let list = "[[partition]]\nname = \"a\"\n[[partition]]\nname = \"b\"\n";
    let said = |new: &str, more: &str| {
        format!(
            "5: key \"partition\" is replaced: {more}{new} (line 5) counts, not an array of 2 tables (line 1)"
        )
    };
    let meant = said("a table", "is [[partition]] meant? ");
    for header in ["[partition]\n", "[partition.x]\n", "[[partition.x]]\n"] {
        assert_eq!(told(list.to_owned() + header), [meant.as_str()], "{header}");
    }
    let twice =
        "6: [partition] comes again and goes on with the table of line 5: is [[partition]] meant?";
    assert_eq!(
        told(list.to_owned() + "[partition]\n[partition]\n"),
        [meant.as_str(), twice]
    );
    let text = "[[apps.k]]\n[apps.k]\nname = \"a\"\n";
    let want =
        "2: apps: key \"k\" is replaced: a table (line 2) counts, not an array of 1 table (line 1)";
    assert_eq!(told(text), [want]);
}

#[test]
fn values_and_tables_that_are_replaced() {
    let text =
        "board = 3\ncomponent = []\n[board]\n[apps]\nk = 1\n[apps.k]\nname = \"a\"\n[component]\n";
    let want = [
        "3: key \"board\" is replaced: a table (line 3) counts, not 3 (line 1)",
        "6: apps: key \"k\" is replaced: a table (line 6) counts, not 1 (line 5)",
        "8: key \"component\" is replaced: a table (line 8) counts, not [] (line 2)",
    ];
    assert_eq!(told(text), want);
    let text = "board.name = \"x\"\nboard = [1]\nboard.chip = \"d13x\"\n[apps.k]\n[apps.k]\n\
                [apps]\nk = 1\n[apps.k]\n[apps.k.name]\n";
    let want = [
        "2: key \"board\" is replaced: [1] (line 2) replaces a table (line 1), and line 3 counts",
        "3: key \"board\" is replaced: a table (line 3) counts, not [1] (line 2)",
        "7: apps: key \"k\" is replaced: 1 (line 7) replaces a table (line 4), and line 8 counts",
        "8: apps: key \"k\" is replaced: a table (line 8) counts, not 1 (line 7)",
    ];
    assert_eq!(told(text), want);
    let text = "[apps.k]\nname = \"a\"\n[apps.k.name]\nx = 1\n";
    let want = "3: application 0 \"k\": key \"name\" is replaced: a table (line 3) counts, not \"a\" (line 2)";
    assert_eq!(told(text), [want]);
}

// TOML of every day, and what no rule reads.
#[test]
fn no_slips() {
    let none = [
        "[apps.k]\nname = \"a\"\n[apps]\n[board]\n[image]\n",
        "[apps]\nk.name = \"a\"\n[apps.k]\nfilename = \"f\"\n",
        "[apps.k]\nname = \"a\"\n[apps]\nk.filename = \"f\"\n",
        "board.name = \"a\"\nboard.chip = \"d13x\"\n[board]\n",
        "partition = []\n[[partition]]\nname = \"a\"\n[[partition]]\nname = \"a\"\n",
        "[[component]]\nname = \"a\"\n[[component]]\nname = \"a\"\n",
        "[apps.a]\nname = \"x\"\n[apps.b]\nname = \"x\"\n",
    ];
    for text in none {
        assert_eq!(told(text), nothing(), "{text}");
    }
    // an unknown key is noted as one, and nothing below it
    let unknown = "x = 1\nx = 2\n[y]\nz = 1\nz = 2\n[y]\n[board.w]\nv = 1\nv = 2\n[board.w]\n";
    let want = [
        "2: unknown key \"x\" is passed over",
        "3: unknown key \"y\" is passed over",
        "7: board: unknown key \"w\" is passed over",
    ];
    assert_eq!(told(unknown), want);
    let plural = "[[partitions]]\nname = \"a\"\nname = \"b\"\n[[partition]]\nname = \"a\"\n";
    let want = "1: key \"partitions\" is passed over, since there is \"partition\"";
    assert_eq!(told(plural), [want]);
}

// An assignment below another header is none of its own table's lines.
#[test]
fn dotted_keys() {
    let text = "[apps.k]\nname = \"a\"\nfilename = \"f\"\n[apps]\nk.name = \"b\"\n\"k\".\"filename\" = \"g\"\n";
    let want = "5: application 0 \"k\": key \"name\" is assigned again, and 1 more up to line 6: \
                name: \"b\" (line 5) counts, not \"a\" (line 2); \
                filename: \"g\" (line 6) counts, not \"f\" (line 3)";
    assert_eq!(told(text), [want]);
}

#[test]
fn texts_without_a_tree() {
    let broken = [
        "",
        "# x\n",
        "[board]\n[board]\nx\n",
        "[[board]\n",
        "[board]\n[[board]]\n",
    ];
    for text in broken {
        assert_eq!(told(text), nothing(), "{text}");
    }
    assert_eq!(told(b"[board]\n[board]\n\xff"), nothing());
    assert_eq!(told("[board]\n".repeat(4_097)), nothing());
}

// A preset with a partition more, and more of what is asked.
fn with(more: &str) -> String {
    let free = "[[partition]]\nname = \"free\"\noffset = 0x140000\nsize = 0x1000\n";
    let text = EXAMPLE.replace("[[component]]", &format!("{free}[[component]]"));
    assert_eq!(told(&text), nothing());
    text + more
}

// The library plans all but this one.
#[test]
fn applications_that_are_never_planned() {
    let text = with(
        "[apps.lamp]\nname = \"first\"\npartition = \"free\"\n[apps.first]\npartition = \"free\"\n",
    );
    let said = |line, entry: &str| {
        format!(
            "{line}: application {entry}: it can never be planned (81): its name \"first\" is \
             the name of component 0 (line 16)"
        )
    };
    // two applications of one name are refused
    assert_eq!(
        Preset::validate(text.as_bytes(), b"").unwrap_err().number,
        65
    );
    let one = text.replace("[apps.first]\npartition = \"free\"\n", "");
    assert_eq!(told(one), [said(24, "1 \"lamp\"")]);
    let other = text.replace("[apps.lamp]\nname = \"first\"\npartition = \"free\"\n", "");
    assert_eq!(told(other), [said(23, "1 \"first\"")]);
}

#[test]
fn references_that_lead_elsewhere() {
    let app = |partition: &str| {
        let text = with(&format!("[apps.lamp]\npartition = \"{partition}\"\n"));
        text.replace("name = \"free\"", &format!("name = \"{partition}\""))
    };
    let said = |into: &str, left: &str, name: &str| {
        format!(
            "24: application 1 \"lamp\": it is planned into {into}: its reference is cut at `;` and trimmed, \
             and that leaves \"{left}\", not partition 2 \"{name}\" (line 12)"
        )
    };
    assert_eq!(
        told(app("free;x")),
        [said("no partition", "free", "free;x")]
    );
    let space = "12: partition 2 \"\\tfree\": its name has white space at its ends";
    let want = [space.into(), said("no partition", "free", "\\tfree")];
    assert_eq!(told(app("\tfree")), want);
    assert_eq!(
        told(app("profiles;x")),
        [said("partition 1 \"profiles\"", "profiles", "profiles;x")]
    );
    assert_eq!(told(app(";")), [said("no partition", "", ";")]);
    // also where the one that it finds is locked; as written it would be refused
    let free = |lock: &str| {
        format!("[[partition]]\nname = \"free\"\noffset = 0x141000\nsize = 0x1000\n{lock}")
    };
    let into = |lock: &str| told(app("free;x") + &free(lock));
    let open = "partition 3 \"free\"";
    assert_eq!(into("locked = false\n"), [said(open, "free", "free;x")]);
    let locked = format!("{open}, which is locked");
    assert_eq!(into("locked = true\n"), [said(&locked, "free", "free;x")]);
    // a component's reference is looked up as it was compared
    assert_eq!(
        told(EXAMPLE.replace("\"boot;mtd\"", "\"\\tboot ;mtd\"")),
        nothing()
    );
}

#[test]
fn applications_that_the_image_names() {
    let image = |app: &str| {
        with("").replace(
            "[[partition]]\nname = \"boot\"",
            &format!("[image]\napp = \"{app}\"\n[[partition]]\nname = \"boot\""),
        )
    };
    assert_eq!(told(image("")), nothing());
    assert_eq!(told(image("desk")), nothing());
    let said = |app: &str, how: &str| format!("4: image: its app \"{app}\" {how}");
    assert_eq!(
        told(image("lamp")),
        [said("lamp", "is the name of no application")]
    );
    let alike = "differs only in case and white space at its ends from \"desk\", \
                 the name of application 0 \"desk\" (line 22)";
    assert_eq!(told(image(" Desk")), [said(" Desk", alike)]);
    let named = image("desk").replace("[apps.desk]", "[apps.desk]\nname = \"Desk\"");
    let alike = "differs only in case from \"Desk\", the name of application 0 \"desk\" (line 23)";
    assert_eq!(told(&named), [said("desk", alike)]);
    let key = "is the key of application 0 \"desk\", and not its name \"table\" (line 23)";
    assert_eq!(told(named.replace("Desk", "table")), [said("desk", key)]);
    let none = image("lamp").replace("[apps.desk]", "[image.more]");
    let found = Notes::of(none.as_bytes(), b"").told;
    assert!(
        found
            .iter()
            .all(|note| note.sort == Sort::Unknown || note.sort == Sort::Header),
        "{found:?}"
    );
}

// Rule 60 lets one component ask for two feature sets of one package: it is built with the first one's.
#[test]
fn packages_with_two_feature_sets() {
    let both = "package = \"loader\"\npbp_package = \"loader\"\nfeatures = \"a b\"\npbp_features = [\"c\"]";
    let text = with("").replace("package = \"loader\"", both);
    let want = "20: component 0 \"first\": its `pbp_features` for package \"loader\" are c; \
                it is built with a, b, the `features` of component 0 \"first\" (line 19)";
    assert_eq!(told(&text), [want]);
    assert_eq!(told(text.replace("[\"c\"]", "[\"b\", \"a\"]")), nothing());
    assert_eq!(
        told(text.replace("\npbp_features = [\"c\"]", "")),
        nothing()
    );
    let third = text.clone() + "[apps.loader]\npartition = \"free\"\nfeatures = \"c\"\n";
    let more = "28: application 1 \"loader\": its `features` for package \"loader\" are c; \
                it is built with a, b, the `features` of component 0 \"first\" (line 19)";
    assert_eq!(told(&third), [want, more]);
    let none = third
        .replace("features = \"a b\"\n", "")
        .replace("are a, b", "are none");
    let want = "19: component 0 \"first\": its `pbp_features` for package \"loader\" are c; \
                it is built with none, the `features` of component 0 \"first\" (line 17)";
    assert_eq!(told(none)[0], want);
}

#[test]
fn partitions_that_are_shared() {
    let component = |name: &str, partition: &str| {
        format!("[[component]]\nname = \"{name}\"\nfile = \"f\"\npartition = \"{partition}\"\n")
    };
    let app = |key: &str, partition: &str| format!("[apps.{key}]\npartition = \"{partition}\"\n");
    let said = |line, entry: &str, rest: &str| vec![format!("{line}: {entry}: {rest}")];
    let text = with(&(component("two", "boot") + &component("three", "free")));
    let rest = "it shares partition \"boot\" with component 0 \"first\" (line 19)";
    assert_eq!(told(&text), said(26, "component 1 \"two\"", rest));
    // applications may, and stand before or after the component
    let apps = app("a", "free") + &app("b", "free") + &app("c", "free");
    assert_eq!(told(with(&apps)), nothing());
    let rest = "it shares partition \"free\" with application 0 \"a\" (line 24)";
    let text = with(&(apps.clone() + &component("two", "free")));
    assert_eq!(told(text), said(32, "component 1 \"two\"", rest));
    let text = with(&(component("two", "free") + &apps));
    let rest =
        "it and 2 more applications share partition \"free\" with component 1 \"two\" (line 26)";
    assert_eq!(told(text), said(28, "application 0 \"a\"", rest));
    let text = with(&(app("a", "free") + &component("two", "free") + &app("b", "free")));
    let want = [
        "28: component 1 \"two\": it shares partition \"free\" with application 0 \"a\" (line 24)",
        "30: application 1 \"b\": it shares partition \"free\" with component 1 \"two\" (line 28)",
    ];
    assert_eq!(told(text), want);
    // one that stays in memory shares nothing
    let ram = component("two", "").replace("file = ", "updater = true\nram = 1\nfile = ");
    assert_eq!(
        told(with(&(ram.clone() + &ram.replace("two", "three")))),
        nothing()
    );
}

#[test]
fn names_that_are_alike() {
    let app =
        |key: &str, name: &str| format!("[apps.{key}]\npartition = \"free\"\nname = \"{name}\"\n");
    let text = with("").replace("name = \"free\"", "name = \"Boot\"");
    let want = "12: partition 2 \"Boot\": its name differs only in case from the name of partition 0 \"boot\" (line 4)";
    assert_eq!(told(text), [want]);
    let two = "[[component]]\nname = \"First\\t\"\nfile = \"f\"\npartition = \"free\"\n";
    let want = "24: component 1 \"First\\t\": its name differs only in case and white space at its ends from \
                the name of component 0 \"first\" (line 16)";
    assert_eq!(told(with(two)), [want]);
    let want = "23: application 0 \"Desk\": its key differs only in case from the key of \
                application 1 \"desk\" (line 20)";
    assert_eq!(told(with(&app("Desk", "x"))), [want]);
    assert_eq!(told(with("[apps.Desk]\npartition = \"free\"\n")), [want]);
    let want = "25: application 1 \"k\": its name \"DESK\" differs only in case from the name of \
                application 0 \"desk\" (line 20)";
    assert_eq!(told(with(&app("k", "DESK"))), [want]);
    let want = "28: application 2 \"l\": its name \"\u{e9}T\" differs only in case from \"\u{c9}t\", \
                the name of application 1 \"k\" (line 25)";
    assert_eq!(
        told(with(&(app("k", "\u{c9}t") + &app("l", "\u{e9}T")))),
        [want]
    );
    // an application's name may be no component's (81)
    let want = "25: application 1 \"k\": its name \"First\" differs only in case from the name of \
                component 0 \"first\" (line 16)";
    assert_eq!(told(with(&app("k", "First"))), [want]);
    // other kinds have names of their own
    assert_eq!(told(with(&app("Boot", "Loader"))), nothing());
    assert_eq!(told(with(&app("x", "\u{ad}x"))), nothing());
}

#[test]
fn items_that_look_like_several() {
    let app = |features: &str| {
        with(&format!(
            "[apps.k]\npartition = \"free\"\nfeatures = {features}\n"
        ))
    };
    let want = "25: application 1 \"k\": an item of `features` is \"pan, tilt\", which is one feature: \
                is \"pan\", \"tilt\" meant?";
    assert_eq!(told(app("[\"zoom\", \"pan, tilt\"]")), [want]);
    assert_eq!(told(app("\"zoom pan, tilt\"")), nothing());
    assert_eq!(told(app("[\"zoom\", \"pan\", \" tilt\"]")), nothing());
    let two = "[[component]]\nname = \"x\"\npackage = \"p\"\npartition = \"free\"\npbp_features = [\"a b\"]\n";
    let want = "27: component 1 \"x\": an item of `pbp_features` is \"a b\", which is one feature: \
                is \"a\", \"b\" meant?";
    assert_eq!(told(with(two)), [want]);
}

#[test]
fn names_with_white_space() {
    let said = |line, entry: &str, what: &str| {
        format!("{line}: {entry}: its {what} has white space at its ends")
    };
    let text = with("").replace("name = \"free\"", "name = \"free\u{3000}\"");
    assert_eq!(
        told(text),
        [said(12, "partition 2 \"free\u{3000}\"", "name")]
    );
    let text = with("").replace("name = \"first\"", "name = \" first\"");
    assert_eq!(told(text), [said(16, "component 0 \" first\"", "name")]);
    let app = "[apps.\" k\"]\npartition = \"free\"\n";
    assert_eq!(told(with(app)), [said(23, "application 0 \" k\"", "key")]);
    let app = "[apps.k]\nname = \"a \"\npartition = \"free\"\n";
    assert_eq!(
        told(with(app)),
        [said(24, "application 1 \"k\"", "name \"a \"")]
    );
    // within a name it is no slip
    assert_eq!(
        told(with("[apps.\"a b\"]\npartition = \"free\"\n")),
        nothing()
    );
}

// Of each sort ten, in the order of lines, and how many more.
#[test]
fn many() {
    let text = "[board]\nname = \"a\"\nchip = \"d13x\"\n".repeat(12)
        + &"x = 1\n[image]\n".repeat(13)
        + &"app = \"a\"\n".repeat(14);
    let found = Notes::of(text.as_bytes(), b"");
    let of = |sort| found.told.iter().filter(move |note| note.sort == sort);
    assert_eq!(of(Sort::Header).count(), MOST);
    assert_eq!(of(Sort::Key).count(), MOST);
    assert!(found.told.is_sorted_by_key(|note| note.line));
    let more = |sort, count| More { sort, count };
    assert_eq!(found.more, [more(Sort::Key, 2), more(Sort::Header, 13)]);
    assert_eq!(found.count(), found.told.len() + 15);
    let said: Vec<String> = found.more.iter().map(More::to_string).collect();
    assert_eq!(
        said,
        [
            "2 more keys are assigned again",
            "13 more headers come again"
        ]
    );
    assert_eq!(
        more(Sort::Unknown, 1).to_string(),
        "1 more key is passed over"
    );
}

// As many lines as a text can have.
#[test]
fn long_texts() {
    let headers = Notes::of("[board]\n".repeat(4_096).as_bytes(), b"");
    assert_eq!(headers.count(), 4_095);
    let keys = Notes::of(
        ("[board]\n".to_owned() + &"name=1\n".repeat(2_000)).as_bytes(),
        b"",
    );
    assert_eq!(keys.count(), 1_999);
    let both = Notes::of("[board]\nname=1\n".repeat(1_500).as_bytes(), b"");
    assert_eq!(both.count(), 1_499);
    let apps: String = (0..1_000)
        .map(|n| format!("[apps.{n}]\n[apps.{n}]\n"))
        .collect();
    assert_eq!(Notes::of(apps.as_bytes(), b"").count(), 1_000);
}

// What a terminal would obey is escaped.
#[test]
fn notes_are_printable() {
    let text = "[apps.\"\u{1b}[2J\"]\nname = \"\u{7}\"\nfilename = \"\u{202e}\"\n\
                name = \"\u{9b}\"\n[apps.\"\u{1b}[2J\"]\n";
    let found = told(text);
    assert_eq!(found.len(), 2);
    assert!(
        found
            .iter()
            .all(|said| !said.contains(|c: char| c.is_control() || c == '\u{202e}')),
        "{found:?}"
    );
}

// A second derivation: texts are built from headers and assignments, so what comes again is known.
mod built {
    use super::*;

    const HEADERS: [(&str, &[&str]); 7] = [
        ("[board]", &["name", "target", "profile"]),
        ("[image]", &["product", "version"]),
        ("[[partition]]", &["name", "offset", "size"]),
        ("[[component]]", &["name", "kind", "package"]),
        ("[apps.a]", &["name", "filename", "attr"]),
        ("[apps.b]", &["name", "filename", "attr"]),
        ("[apps]", &[]),
    ];

    // A key's assignment, with how its value is shown.
    #[derive(Clone)]
    struct Assigned {
        line: usize,
        key: &'static str,
        value: String,
    }

    #[derive(Default)]
    struct Built {
        text: String,
        lines: usize,
        // header lines by table; a list's entries are tables of their own
        headers: BTreeMap<String, Vec<usize>>,
        assigned: BTreeMap<String, Vec<Assigned>>,
    }

    impl Built {
        fn put(&mut self, line: &str) -> usize {
            self.text += line;
            self.text += "\n";
            self.lines += 1;
            self.lines
        }

        fn header(&mut self, header: &str) -> String {
            let line = self.put(header);
            let table = if header.starts_with("[[") {
                format!("{header} {line}")
            } else {
                header.into()
            };
            self.headers.entry(table.clone()).or_default().push(line);
            table
        }

        fn assign(&mut self, r: &mut Rng, table: &str, keys: &[&'static str]) {
            let (n, key) = (r.below(4), keys[r.below(keys.len())]);
            // a number is shown as it is written
            let value = match (r.below(2), n % 2) {
                (0, 0) => format!("{n}"),
                (0, _) => format!("0x0{n}"),
                _ => format!("\"{n}\""),
            };
            let line = self.put(&format!("{key} = {value}"));
            let own = self.assigned.entry(table.into()).or_default();
            own.push(Assigned { line, key, value });
        }

        // Each repeat's line with its last words.
        fn repeats(&self) -> BTreeMap<usize, (String, String)> {
            let each = self.assigned.values().flat_map(|own| {
                (0..own.len())
                    .filter_map(|n| Some((own[n].line, (own[n].key.into(), words(own, n)?))))
            });
            each.collect()
        }

        fn later_headers(&self) -> BTreeMap<usize, String> {
            let each = self.headers.iter().flat_map(|(table, lines)| {
                let said = format!(
                    "{table} comes again and goes on with the table of line {}",
                    lines[0]
                );
                lines[1..].iter().map(move |line| (*line, said.clone()))
            });
            each.collect()
        }
    }

    fn words(own: &[Assigned], n: usize) -> Option<String> {
        let new = &own[n];
        let old = own[..n].iter().rfind(|old| old.key == new.key)?;
        let last = own.iter().rfind(|last| last.key == new.key)?;
        let (value, line, was, at) = (&new.value, new.line, &old.value, old.line);
        Some(match last.line {
            last if last != line => {
                format!("{value} (line {line}) replaces {was} (line {at}), and line {last} counts")
            }
            _ if value == was => {
                format!("{value} (line {line}) counts, the same as before (line {at})")
            }
            _ => format!("{value} (line {line}) counts, not {was} (line {at})"),
        })
    }

    fn built(r: &mut Rng) -> Built {
        let mut out = Built::default();
        for _ in 0..1 + r.below(6) {
            let (header, keys) = HEADERS[r.below(HEADERS.len())];
            let table = out.header(header);
            if r.below(3) == 0 {
                out.put(["", "# name = 1", "  # [board]"][r.below(3)]);
            }
            let lines = if keys.is_empty() { 0 } else { r.below(6) };
            (0..lines).for_each(|_| out.assign(r, &table, keys));
        }
        out
    }

    // How many repeats a note speaks of, and the line of the last.
    fn spoken(said: &str) -> (usize, Option<usize>) {
        let Some((_, rest)) = said.split_once(" is assigned again") else {
            return (0, None);
        };
        let more = rest
            .strip_prefix(", and ")
            .and_then(|rest| rest.split_once(" more up to line "));
        let Some((count, rest)) = more else {
            return (1, None);
        };
        let line: String = rest.chars().take_while(char::is_ascii_digit).collect();
        (
            1 + count.parse::<usize>().expect("a count"),
            line.parse().ok(),
        )
    }

    // Each repeat is told by one note, and each note speaks of what is there.
    #[test]
    fn what_comes_again_is_noted_once() {
        let mut r = Rng::new(31);
        let met: usize = (0..turns(2_000)).map(|_| noted(&built(&mut r))).sum();
        assert!(met > turns(1_000), "{met}");
    }

    // How many notes there are, where all of them are told.
    fn noted(built: &Built) -> usize {
        let found = Notes::of(built.text.as_bytes(), b"");
        if !found.more.is_empty() {
            return 0;
        }
        let (mut repeats, mut headers) = (built.repeats(), built.later_headers());
        for note in &found.told {
            spent(note, &built.text, &mut repeats, &mut headers);
        }
        let rest = format!("{repeats:?} {headers:?} in\n{}", built.text);
        assert!(repeats.is_empty() && headers.is_empty(), "{rest}");
        found.told.len()
    }

    fn spent(
        note: &Note,
        text: &str,
        repeats: &mut BTreeMap<usize, (String, String)>,
        headers: &mut BTreeMap<usize, String>,
    ) {
        let (said, line) = (note.to_string(), note.line.expect("a line"));
        if note.sort == Sort::Header {
            let want = headers.remove(&line);
            assert!(
                want.is_some_and(|want| said.starts_with(&want)),
                "{said} in\n{text}"
            );
        }
        let (count, last) = spoken(&said);
        let own: Vec<usize> = repeats
            .range(line..)
            .map(|(line, _)| *line)
            .take(count)
            .collect();
        assert_eq!(own.len(), count, "{said} in\n{text}");
        for (n, at) in own.iter().enumerate() {
            let (key, words) = repeats.remove(at).expect("a repeat");
            let first = said.contains(&format!("key \"{key}\" is assigned again"));
            let own = if count > 1 {
                format!("{key}: {words}")
            } else {
                words
            };
            let told = said.contains(&own) && (n > 0 || first);
            assert!(told, "{said}, not {own}, in\n{text}");
        }
        assert!(
            last.is_none_or(|last| own.last() == Some(&last)),
            "{said} in\n{text}"
        );
    }
}

// Notes are said beside the answers, whatever the text is: the results and the status are those of validation.
#[test]
fn answers_stay_as_they_are() {
    let folder = std::env::temp_dir().join(format!("preset-notes-{}", std::process::id()));
    std::fs::create_dir_all(&folder).expect("a folder for texts");
    let mut r = Rng::new(41);
    let mut want = String::new();
    let mut files = Vec::new();
    for n in 0..turns(400) {
        let text = edited(&mut r);
        let file = folder.join(format!("{n}.toml"));
        std::fs::write(&file, &text).expect("a text is written");
        want += &answered(file.to_str().expect("a plain path"), &text);
        files.push(file);
    }
    let [got, quiet] = [&["check"][..], &["check", "-q"]].map(|words| {
        let mut command = command();
        command.args(words).args(&files).output().expect("it runs")
    });
    std::fs::remove_dir_all(&folder).expect("the folder is removed");
    assert_eq!(String::from_utf8(got.stdout).expect("UTF-8"), want);
    assert_eq!((got.status.code(), quiet.status.code()), (Some(1), Some(1)));
    let refused = want.lines().filter(|line| !line.contains(": ok: "));
    let refused: String = refused.map(|line| format!("{line}\n")).collect();
    assert_eq!(String::from_utf8(quiet.stdout).expect("UTF-8"), refused);
}

// Elsewhere than on x86-64 `rust/cross` names an emulator.
fn command() -> Command {
    let program = env!("CARGO_BIN_EXE_preset");
    match std::env::var("CARGO_TARGET_X86_64_UNKNOWN_LINUX_GNU_RUNNER") {
        Ok(runner) => {
            let mut command = Command::new(runner);
            command.arg(program);
            command
        }
        Err(_) => Command::new(program),
    }
}

// Texts of every sort, and examples with lines taken out, doubled or moved.
fn edited(r: &mut Rng) -> Vec<u8> {
    if r.below(2) == 0 {
        return mixed::text(r);
    }
    let mut lines: Vec<&str> = r.pick(&[EXAMPLE, STAGE, TOUR]).lines().collect();
    for _ in 0..1 + r.below(3) {
        let (from, to) = (r.below(lines.len()), r.below(lines.len()));
        match r.below(3) {
            0 => drop(lines.remove(from)),
            1 => lines.insert(to, lines[from]),
            _ => lines.swap(from, to),
        }
    }
    lines.join("\n").into_bytes()
}

fn answered(file: &str, text: &[u8]) -> String {
    // the name of the file is the board's, which is no part of what is printed
    match Preset::validate(text, b"") {
        Ok(preset) => {
            let many = |count: usize, word: &str| {
                format!("{count} {word}{}", if count == 1 { "" } else { "s" })
            };
            let [partitions, components, apps] = [
                many(preset.partitions.len(), "partition"),
                many(preset.components.len(), "component"),
                many(preset.apps.len(), "application"),
            ];
            let (chip, media) = (preset.board.chip.name(), preset.image.media.name());
            format!("{file}: ok: {chip}, {media}, {partitions}, {components}, {apps}\n")
        }
        Err(refusal) => {
            let fault = Fault::find(text, refusal, None);
            let line = fault.line.map_or(String::new(), |line| format!(":{line}"));
            let below = fault.text.as_ref().filter(|text| !text.is_empty());
            let below = below.map_or(String::new(), |text| format!("    {text}\n"));
            format!("{file}{line}: {fault}\n{below}")
        }
    }
}
