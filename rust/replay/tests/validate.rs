//! Validation against the definitions alone; these tests need no original.
use preset::{Chip, Media};
use replay::generators::random::{Rng, turns};
use replay::generators::records::random::name;
use replay::generators::validate::cases::CASES;
use replay::generators::validate::faults::FAULTS;
use replay::generators::validate::plain::{insert, nth_app, plain, texts};
use replay::generators::validate::{random, sound, spelled};
use replay::harness::ask::records::{Host, VALIDATE, difference};
use replay::model::answer::records::{Preset, Refusal};
use replay::model::records::{self, UNLIMITED};
use replay::model::validate as model;

// What is changed in a plain preset with four entries in each list, and its refusal: number, section
// and place, 0 for none.
type Rule = (u32, u32, usize, fn(&mut Preset));

const FRONT: [Rule; 14] = [
    (0, 0, 0, |_| {}),
    (30, 2, 0, |p| p.image.media = Media::SpiNand),
    (31, 2, 0, |p| p.image.platform = "d21x".into()),
    (31, 2, 0, |p| {
        p.image.platform.clear();
        p.board.profile.clear();
    }),
    (32, 1, 0, |p| p.board.profile.clear()),
    (32, 1, 0, |p| {
        p.image.boot_app = "n".repeat(33);
        p.board.profile.clear();
    }),
    (0, 0, 0, |p| p.image.boot_app = "é".repeat(16)),
    (33, 2, 0, |p| p.image.boot_app = "é".repeat(17)),
    (33, 2, 0, |p| {
        p.image.boot_app = "n".repeat(33);
        p.board.target.clear();
    }),
    (34, 1, 0, |p| p.board.target.clear()),
    (34, 1, 0, |p| p.board.target = "riscv".into()),
    (35, 1, 0, |p| p.board.target = "x-riscv64".into()),
    (0, 0, 0, |p| p.board.target = "riscv64riscv32".into()),
    (35, 1, 0, |p| {
        p.board.target = "riscv64".into();
        p.partitions.clear();
    }),
];

const PARTITIONS: [Rule; 18] = [
    (40, 3, 0, |p| p.partitions.clear()),
    (41, 3, 0, |p| p.partitions[0].offset = 4_096),
    (41, 3, 0, |p| {
        p.partitions[0].offset = 1;
        p.partitions[0].name.clear();
    }),
    (42, 3, 2, |p| p.partitions[2].name.clear()),
    (43, 3, 2, |p| {
        p.partitions[3].name = "p0".into();
        p.partitions[2].name = "p1".into();
    }),
    (44, 3, 1, |p| {
        p.partitions[2].name = "p1".into();
        p.partitions[1].size = 0;
    }),
    (45, 3, 3, |p| p.partitions[3].offset += 1),
    (45, 3, 3, |p| p.partitions[3].offset = 4_095),
    (46, 3, 0, |p| p.partitions[0].size = 4_095),
    (46, 3, 3, |p| p.partitions[3].size = 4_097),
    (47, 3, 2, |p| p.partitions[2].offset = 4_096),
    (47, 3, 1, |p| p.partitions[0].size = 8_192),
    (0, 0, 0, |p| p.partitions[3].offset += 4_096),
    (0, 0, 0, |p| p.partitions[3].offset = 0xFFFF_E000),
    (48, 3, 3, |p| p.partitions[3].offset = 0xFFFF_F000),
    (48, 3, 3, |p| p.partitions[3].size = 0xFFFF_D000),
    (0, 0, 0, |p| p.partitions[3].size = 0xFFFF_C000),
    (48, 3, 3, |p| {
        p.partitions[3].size = 0xFFFF_F000;
        p.components.clear();
    }),
];

const COMPONENTS: [Rule; 19] = [
    (50, 4, 0, |p| p.components.clear()),
    (51, 4, 2, |p| {
        p.components[3].name = "c0".into();
        p.components[2].name = "c1".into();
    }),
    (0, 0, 0, |p| p.components[1].name.clear()),
    (0, 0, 0, |p| p.components[1].name = "漢".repeat(10)),
    (52, 4, 1, |p| p.components[1].name = "漢".repeat(11)),
    (53, 4, 2, |p| {
        p.components[2].file = Some(Default::default())
    }),
    (54, 4, 0, |p| p.components[0].package = None),
    (55, 4, 3, |p| {
        p.components[3].pbp = Some(Default::default());
        p.components[3].pbp_package = Some(Default::default());
    }),
    (56, 4, 1, |p| p.components[1].updater = true),
    (57, 4, 1, |p| p.components[1].partition.clear()),
    (0, 0, 0, |p| {
        p.components[1].partition.clear();
        (p.components[1].updater, p.components[1].ram) = (true, Some(0));
    }),
    (0, 0, 0, |p| p.components[1].partition = " p3 ;p;".into()),
    (58, 4, 1, |p| p.components[1].partition = ";p1".into()),
    (58, 4, 1, |p| p.components[1].partition = " ".into()),
    (58, 4, 2, |p| {
        p.partitions[2].name = "p2 ".into();
        nth_app(p, 2).partition = "p2 ".into();
    }),
    (0, 0, 0, |p| p.components[3].ext_reserve = 512),
    (59, 4, 3, |p| p.components[3].ext_reserve = 511),
    (59, 4, 0, |p| {
        p.components[0].ext_reserve = 1;
        p.components[1].name = "c0".into();
    }),
    (59, 4, 3, |p| {
        p.components[3].ext_reserve = 1;
        featured(p, 1, "f");
    }),
];

const OTHERS: [Rule; 33] = [
    (60, 4, 2, |p| featured(p, 2, "f")),
    (60, 4, 1, |p| featured(p, 0, "f")),
    (0, 0, 0, |p| (0..4).for_each(|i| featured(p, i, "f"))),
    (0, 0, 0, |p| p.components[3].pbp_features = texts(&["f"])),
    (60, 4, 3, |p| {
        p.components[3].pbp_package = Some("p".into());
        p.components[3].pbp_features = texts(&["f"]);
    }),
    (60, 4, 3, |p| {
        (0..4).for_each(|i| featured(p, i, "f"));
        p.components[3].features = texts(&["g"]);
    }),
    (0, 0, 0, |p| {
        (0..4).for_each(|i| featured(p, i, "f"));
        p.components[3].pbp_package = Some("p".into());
        p.components[3].features = texts(&["g"]);
    }),
    (60, 5, 3, |p| {
        last_app_for_p(p);
        nth_app(p, 3).features = texts(&[""]);
        nth_app(p, 0).name.clear();
    }),
    (0, 0, 0, last_app_for_p),
    (61, 5, 1, |p| nth_app(p, 1).name.clear()),
    (0, 0, 0, |p| nth_app(p, 1).name = "😀".repeat(8)),
    (62, 5, 1, |p| nth_app(p, 1).name = "😀".repeat(8) + "x"),
    (63, 5, 2, |p| nth_app(p, 2).filename.clear()),
    (64, 5, 3, |p| nth_app(p, 3).partition = "p3;x".into()),
    (64, 5, 3, |p| nth_app(p, 3).partition = " p3".into()),
    (64, 5, 0, |p| nth_app(p, 0).partition.clear()),
    (67, 5, 0, |p| p.partitions[0].locked = true),
    (67, 5, 3, |p| p.partitions[3].locked = true),
    (67, 5, 1, |p| {
        p.partitions[3].locked = true;
        p.partitions[1].locked = true;
    }),
    (63, 5, 1, |p| {
        p.partitions[1].locked = true;
        nth_app(p, 1).filename.clear();
    }),
    (64, 5, 0, |p| {
        p.partitions[0].locked = true;
        nth_app(p, 0).partition = "p0;".into();
    }),
    (67, 5, 1, |p| {
        p.partitions[1].locked = true;
        nth_app(p, 1).name = "a00".into();
        nth_app(p, 1).load_address = Some(1);
    }),
    (65, 5, 1, |p| {
        p.partitions[2].locked = true;
        nth_app(p, 1).name = "a00".into();
    }),
    (0, 0, 0, |p| {
        p.partitions[1].name = "p0;x".into();
        p.components[1].partition = "p0".into();
        (0..4).for_each(|i| nth_app(p, i).partition = "p0;x".into());
        p.partitions[0].locked = true;
    }),
    (0, 0, 0, |p| {
        p.apps.clear();
        p.partitions.iter_mut().for_each(|part| part.locked = true);
    }),
    (65, 5, 1, |p| nth_app(p, 0).name = "a01".into()),
    (65, 5, 2, |p| {
        nth_app(p, 3).name = "a00".into();
        nth_app(p, 2).name = "a01".into();
    }),
    (0, 0, 0, |p| nth_app(p, 2).name = "c0".into()),
    (66, 5, 0, |p| nth_app(p, 0).load_address = Some(2)),
    (0, 0, 0, |p| nth_app(p, 0).load_address = Some(0xFFFF_FFFC)),
    (0, 0, 0, |p| p.components[0].load_address = Some(2)),
    (70, 4, 0, |p| p.components[0].partition = "p1".into()),
    (66, 5, 3, |p| {
        p.components[0].partition = "p1".into();
        nth_app(p, 3).load_address = Some(1);
    }),
];

// The last application builds the components' package.
fn last_app_for_p(p: &mut Preset) {
    let (_, mut last) = p.apps.pop_last().expect("four");
    last.package = "p".into();
    insert(p, last);
}

fn featured(p: &mut Preset, n: usize, feature: &str) {
    p.components[n].features = texts(&[feature]);
    p.components[n].pbp_features = texts(&[feature]);
}

fn rules() -> impl Iterator<Item = &'static Rule> {
    let lists = PARTITIONS.iter().chain(&COMPONENTS);
    FRONT.iter().chain(lists).chain(&OTHERS)
}

#[test]
fn rules_of_validation() {
    let (mut r, mut host) = (Rng::new(1), Host::new(VALIDATE));
    for (i, (number, section, place, change)) in rules().enumerate() {
        let mut preset = plain(Chip::D13x, [4, 4, 4]);
        change(&mut preset);
        let refusal = Refusal {
            number: *number,
            section: *section,
            place: *place,
        };
        let want = (*number > 0).then_some(refusal);
        assert_eq!(model::refusal(&preset), want, "rule {i}");
        let text = spelled::text(&mut r, &preset);
        let got = model::read(text.as_bytes(), b"board");
        let told = host.judge_fully(text.as_bytes(), b"board", &got);
        told.map_err(|e| panic!("{text}: port against definition, {e}"))
            .ok();
        assert_eq!(got.err(), want, "rule {i}: {text}");
    }
    let told = |number: &u32| rules().any(|rule| rule.0 == *number);
    assert!(model::NUMBERS.iter().all(told));
}

#[test]
fn sound_presets() {
    let mut r = Rng::new(2);
    for i in 0..turns(2_000) {
        let preset = match i % 100 {
            0 => sound::wide(&mut r),
            _ => sound::preset(&mut r),
        };
        assert_eq!(model::refusal(&preset), None, "{preset:?}");
    }
}

// Each fault is refused with its number, wherever it is.
#[test]
fn faults_alone() {
    let mut r = Rng::new(3);
    for n in 0..200 {
        for (number, fault) in FAULTS {
            let mut preset = sound::preset(&mut r);
            fault(&mut preset, n, &mut r);
            let got = model::refusal(&preset).map(|refusal| refusal.number);
            assert_eq!(got, Some(number), "{preset:?}");
        }
    }
}

fn judged(host: &mut Host, text: &[u8], name: &[u8]) {
    let told = host.judge(text, name, &model::read(text, name));
    told.map_err(|e| panic!("{}: port against definition, {e}", text.escape_ascii()))
        .ok();
}

#[test]
fn around_every_boundary() {
    let mut host = Host::new(VALIDATE);
    spelled::each(&CASES, 5, |text| judged(&mut host, text, b"board"));
}

#[test]
fn random_presets() {
    let (mut r, mut host) = (Rng::new(6), Host::new(VALIDATE));
    for _ in 0..turns(10_000) {
        let name = name(&mut r);
        judged(&mut host, &random::text(&mut r), &name);
    }
}

// A text that is spelled from records is read as these, also by the port.
#[test]
fn spelled_presets() {
    let (mut r, mut host) = (Rng::new(4), Host::default());
    for _ in 0..turns(2_000) {
        let preset = random::preset(&mut r);
        let text = spelled::text(&mut r, &preset);
        let read = records::read_within(text.as_bytes(), b"board", &UNLIMITED);
        let got = read.expect("records").preset;
        assert_eq!(difference(&got, &preset), None, "{text}");
        let want = records::read(text.as_bytes(), b"board");
        let told = host.judge(text.as_bytes(), b"board", &want);
        told.map_err(|e| panic!("{text}: port against definition, {e}"))
            .ok();
    }
}
