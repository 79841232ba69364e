//! The crate against the definitions, and the words and sizes that it says itself against the library.
use preset::*;
use replay::harness::ask::{plan, records};
use replay::model;

const PRESETS: [&str; 4] = [
    include_str!("../../../presets/example.toml"),
    include_str!("../../../presets/stage-d13x.toml"),
    include_str!("../../../presets/tour-d21x.toml"),
    include_str!("../../../presets/calib-d13x.toml"),
];

// Every field is used by one of these, so that none is compared by its default alone.
const MORE: &str = "[[partition]]\nname = \"a\"\noffset = 0\nsize = 0x1000\n[[component]]\nname = \"x\"\n\
                    file = \"d/f.bin\"\npartition = \"a\"\npbp = \"p/p.bin\"\nprivate = \"k.pem\"\n\
                    entry_point = 8\nentry_offset = 4\nload_address = 12\nheader_version = 3\n\
                    [image]\nmedia_id = \"m\"\napp = \"x\"\nmedia_dev_id = 7\n";

#[test]
fn records_are_the_definitions() {
    for (name, text) in PRESETS.into_iter().chain([MORE]).enumerate() {
        let (name, text) = (name.to_string(), text.as_bytes());
        let own = Preset::validate(text, name.as_bytes()).expect("accepted");
        assert_eq!(Preset::read(text, name.as_bytes()), Ok(own.clone()));
        let want = model::validate::read(text, name.as_bytes()).expect("accepted");
        assert_eq!(records::difference(&own, &want.preset), None);
        for (key, app) in &own.apps {
            assert_eq!(key, &app.package);
        }
    }
}

#[test]
fn plans_are_the_definitions() {
    for text in PRESETS.into_iter().chain([MORE]) {
        let text = text.as_bytes();
        let preset = Preset::validate(text, b"n").expect("accepted");
        let keys = preset.apps.keys().map(|key| Some(key.as_str()));
        for key in keys.chain([None]) {
            let selection = key.map_or(Selection::Bootloader, |k| Selection::App(k.into()));
            let own = Preset::plan(text, b"n", &selection).expect("a plan");
            let want = model::plan::plan(&preset, key.map(str::as_bytes)).expect("a plan");
            assert_eq!(plan::difference(&own, &want), None);
            for component in &own.components {
                let found = own.partition(&component.spec.partition);
                assert_eq!(found, component.partition.as_ref());
            }
        }
    }
}

// A lock is in the records, in the plan's and on the listing's lines.
#[test]
fn locks_are_kept() {
    let [.., text] = PRESETS.map(str::as_bytes);
    let preset = Preset::validate(text, b"n").expect("accepted");
    let locked = |p: &&PartitionSpec| p.locked;
    let names = |all: &[PartitionSpec]| -> Vec<String> {
        let locked = all.iter().filter(locked);
        locked.map(|p| p.name.clone()).collect()
    };
    assert_eq!(names(&preset.partitions), ["calib"]);
    let plan = Preset::plan(text, b"n", &Selection::App("trim-editor".into())).expect("a plan");
    assert_eq!(names(&plan.partitions), ["calib"]);
    let into = plan.components.iter().filter_map(|c| c.partition.clone());
    assert_eq!(names(&into.collect::<Vec<_>>()), ["calib"]);
    let listing = Preset::listing(text, b"n").expect("lines");
    let listing = String::from_utf8(listing).expect("UTF-8");
    let lines: Vec<&str> = listing.lines().filter(|l| l.starts_with("part ")).collect();
    let want = [
        "part \"boot\" 0 262144 open",
        "part \"env\" 262144 270336 open",
        "part \"calib\" 270336 524288 locked",
        "part \"profiles\" 524288 2621440 open",
        "part \"trims\" 2621440 3670016 open",
        "part \"logs\" 3932160 4194304 open",
    ];
    assert_eq!(lines, want);
}

// The words that the library gives by default, and takes.
#[test]
fn words_are_the_librarys() {
    for chip in Chip::ALL {
        let text = format!("[board]\nchip = \"{}\"\n", chip.name());
        let preset = Preset::read(text.as_bytes(), b"").expect("records");
        assert_eq!(preset.board.chip, chip);
        assert_eq!(preset.board.target, chip.default_target());
        assert_eq!(preset.image.platform, chip.name());
        assert_eq!(preset.image.media, chip.default_media());
        let text = format!("[image]\nmedia = \"{}\"\n", chip.default_media().name());
        let preset = Preset::read(text.as_bytes(), b"").expect("records");
        assert_eq!(preset.image.media, chip.default_media());
        blocks(chip);
    }
    assert_eq!(Chip::parse("d13x"), Some(Chip::D13x));
    assert_eq!(Media::parse("spi-nand"), Some(Media::SpiNand));
    assert_eq!(ComponentKind::parse("App"), None);
    for kind in ComponentKind::ALL {
        let text = format!("[[component]]\nname = \"x\"\nkind = \"{}\"\n", kind.name());
        let preset = Preset::read(text.as_bytes(), b"").expect("records");
        assert_eq!(preset.components[0].kind, kind);
    }
}

// Each shows itself by its word and is found by it; of another word the error names them all.
#[test]
fn words_are_shown_and_found() {
    assert!(Chip::ALL.iter().all(|c| c.to_string().parse() == Ok(*c)));
    assert!(Media::ALL.iter().all(|m| m.to_string().parse() == Ok(*m)));
    let kinds = ComponentKind::ALL.iter();
    assert!(kinds.clone().all(|k| k.to_string().parse() == Ok(*k)));
    assert_eq!(format!("{:>6}|", Chip::D13x), "  d13x|");
    let unknown = |error: UnknownWord| error.to_string();
    let media = "nor\n".parse::<Media>().map_err(unknown);
    let said = "unknown media \"nor\\n\"; there are spi-nor, spi-nand";
    assert_eq!(media, Err(said.into()));
    let kind = "App".parse::<ComponentKind>().map_err(unknown);
    let said = "unknown kind \"App\"; there are app, pbp, raw";
    assert_eq!(kind, Err(said.into()));
}

// One erase block is a size; half of one more is none.
fn blocks(chip: Chip) {
    let number = |size: u32| {
        let chip = chip.name();
        let text = format!(
            "[board]\nchip = \"{chip}\"\n[[partition]]\nname = \"a\"\noffset = 0\nsize = {size}\n"
        );
        Preset::validate(text.as_bytes(), b"")
            .expect_err("no components")
            .number
    };
    let block = chip.erase_size();
    assert_eq!([block, block / 2, block * 3 / 2].map(number), [50, 46, 46]);
}

#[test]
fn limits_are_the_librarys() {
    let preset = |name: usize, reserve: usize| {
        let (name, reserve) = ("n".repeat(name), reserve.to_string());
        let text = MORE.replace(
            "\"x\"\nfile",
            &format!("\"{name}\"\next_reserve = {reserve}\nfile"),
        );
        Preset::validate(text.as_bytes(), b"").map_err(|e| e.number)
    };
    assert!(preset(NAME_MAX, EXT_ALIGNMENT).is_ok());
    assert_eq!(preset(NAME_MAX + 1, 0), Err(52));
    assert_eq!(preset(1, EXT_ALIGNMENT / 2), Err(59));
    let long = |more| Preset::read(&vec![b'#'; TEXT_MAX + more], b"").map_err(|e| e.number);
    assert!(long(0).is_ok());
    assert_eq!(long(1), Err(1));
}

#[test]
fn refusals_in_words() {
    let said = |text: &str| Preset::validate(text.as_bytes(), b"").expect_err("refused");
    let long = "#".repeat(TEXT_MAX + 1);
    let partition = "[[partition]]\nname = \"a\"\noffset = 0\nsize = 0x1000\n";
    let bad = format!("{partition}[[component]]\nname = \"x\"\nfile = \"f\"\npartition = \"b\"\n");
    let locked = bad
        .replace("\"b\"", "\"a\"")
        .replace("0x1000", "0x1000\nlocked = true");
    let locked = locked + "[apps.k]\npartition = \"a\"\n";
    let words = [
        ("\na = b", "refused 12 at line 2: not an integer"),
        (&long, "refused 1: text too long"),
        (
            "[board]\nprofile = \"\"",
            "refused 32 at board: empty profile",
        ),
        ("", "refused 40 at partitions: no partitions"),
        (partition, "refused 50 at components: no components"),
        (&bad, "refused 58 at component 0: unknown partition"),
        (&locked, "refused 67 at application 0: partition is locked"),
        (
            "[image]\nmedia = 1",
            "refused 20 at image: wrong kind of value",
        ),
    ];
    for (text, want) in words {
        let refusal = said(text);
        assert_eq!(refusal.to_string(), want);
        let error: Box<dyn std::error::Error> = refusal.into();
        assert_eq!(error.to_string(), want);
    }
    let other = Selection::App("x".into());
    let refusal = Preset::plan(PRESETS[0].as_bytes(), b"", &other).expect_err("refused");
    assert_eq!(refusal.section, Section::Application);
    assert_eq!(refusal.section.number(), 5);
    assert_eq!(
        refusal.to_string(),
        "refused 80 at applications: application not declared"
    );
}

// From a text to records or a fault in one call, and the fault is an error whose source is the refusal.
#[test]
fn faults_are_errors() {
    let checked = |text: &str| -> Result<Preset, Box<dyn std::error::Error>> {
        Ok(Preset::check(text.as_bytes(), b"n")?)
    };
    let preset = checked(PRESETS[0]).expect("accepted");
    assert_eq!(Preset::validate(PRESETS[0].as_bytes(), b"n"), Ok(preset));
    let error = checked("[[partition]]\nname = 1\n").expect_err("refused");
    let source = error.source().and_then(|e| e.downcast_ref::<Refusal>());
    let number = source.map(|refusal| refusal.number);
    assert_eq!((number, error.is::<Fault>()), (Some(20), true));
}

#[test]
fn plans_are_checked_in_one_call() {
    let text = PRESETS[0].as_bytes();
    for key in [None, Some("desk"), Some("lamp")] {
        let selection = key.map_or(Selection::Bootloader, |k| Selection::App(k.into()));
        assert_eq!(selection.package(), key);
        let plan = Preset::check_plan(text, b"n", &selection);
        let want = Preset::plan(text, b"n", &selection);
        let want = want.map_err(|refusal| Fault::find(text, refusal, key));
        assert_eq!(plan, want);
        assert_eq!(plan.is_ok(), key != Some("lamp"));
    }
}

// A name that is not UTF-8 counts as `board`, an empty one stays.
#[test]
fn lent_names() {
    let name = |name: &[u8]| Preset::read(b"", name).expect("records").board.name;
    assert_eq!(name(b"\xff"), "board");
    assert_eq!(name(b""), "");
    assert_eq!(name("é".as_bytes()), "é");
    assert_eq!(name(&[b'x'; 70_000]).len(), 70_000);
    let listing = |text: &str, name: &[u8]| {
        let lines = Preset::listing(text.as_bytes(), name).expect("lines");
        String::from_utf8(lines).expect("UTF-8")
    };
    let lines = listing(PRESETS[0], &[b'x'; 70_000]);
    assert!(lines.ends_with("\nstem \"loader\"\n"));
    // each byte of it is printed as two
    let raw = PRESETS[0].replace("\"app\"", "\"raw\"");
    let (lines, stem) = (listing(&raw, &[b'\t'; 70_000]), "\\t".repeat(70_000));
    assert!(lines.ends_with(&format!("\nstem \"{stem}\"\n")));
}

// A partition with a space in its name, one that is called like an absent one, and a component that goes nowhere.
const SHELF: &str = r#"
[[partition]]
name = "head data"
offset = 0
size = 0x40000
[[partition]]
name = "-"
offset = 0x40000
size = 0x100000
[[component]]
name = "first"
package = "loader"
kind = "app"
partition = "head data;mtd"
[[component]]
name = "second"
file = "second.bin"
partition = "-"
[[component]]
name = "ram"
file = "ram.bin"
updater = true
ram = 0
[apps.desk]
partition = "-"
"#;

// What the document for those who read listings shows, before names were quoted and now.
#[test]
fn listings_are_as_the_document_shows_them() {
    let paper = include_str!("../../../docs/MIGRATION.md");
    let lines = Preset::listing(SHELF.as_bytes(), b"n").expect("lines");
    let lines = String::from_utf8(lines).expect("UTF-8");
    for shown in [lines.replace('"', ""), lines] {
        assert!(paper.contains(&format!("```text\n{shown}```")), "{shown}");
    }
}

// All that is unsafe is in the port, where each block has its reason right above it.
#[test]
fn unsafe_blocks_say_why() {
    let here = std::path::Path::new(env!("CARGO_MANIFEST_DIR"));
    let mut met = 0;
    for file in std::fs::read_dir(here.join("../port/src")).expect("the port") {
        let path = file.expect("a file").path();
        let text = std::fs::read_to_string(&path).expect("a text");
        let lines: Vec<&str> = text.lines().map(str::trim).collect();
        for at in (0..lines.len()).filter(|at| lines[*at].contains("unsafe {")) {
            let above = lines[..at].iter().rev();
            let reason: Vec<_> = above.take_while(|line| line.starts_with("//")).collect();
            let said = reason
                .last()
                .is_some_and(|line| line.starts_with("// SAFETY: "));
            assert!(said, "{}:{}", path.display(), at + 1);
            met += 1;
        }
    }
    assert!(met > 30, "{met}");
}
