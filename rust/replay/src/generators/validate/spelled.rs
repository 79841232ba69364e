//! From records back to a text, in one of many spellings.
use super::cases::Case;
use crate::generators::random::Rng;
use crate::generators::records::draft::{Block, Draft};
use crate::generators::records::spelling::Section;
use crate::model::answer::records::Preset;
use crate::model::records::{KINDS, MEDIA, belongings, filename_for, named, written};
use preset::{AppSpec, BoardInfo, Chip, ComponentSpec, ImageInfo, PartitionSpec};
use std::path::PathBuf;

/// Each preset of these cases as a text, one after the other.
pub fn each(cases: &[Case], seed: u64, mut asked: impl FnMut(&[u8])) {
    let mut r = Rng::new(seed);
    for (_, presets) in cases {
        for preset in presets() {
            asked(text(&mut r, &preset).as_bytes());
        }
    }
}

/// A text that is read as these records where `board` is lent as name.
pub fn text(r: &mut Rng, p: &Preset) -> String {
    let mut draft = Draft::default();
    front(r, p, &mut draft);
    partitions(r, p, &mut draft);
    let word = plural(r, "component", p.components.is_empty(), &mut draft);
    for c in &p.components {
        let lines = component(r, c);
        draft.blocks.push(block(Section::Component, &word, lines));
    }
    for app in p.apps.values() {
        let (header, lines) = (
            format!("[apps.{}]", key(r, &app.package)),
            application(r, app),
        );
        draft
            .blocks
            .push(block(Section::Application, &header, lines));
    }
    if r.below(3) == 0 {
        mixed(r, &mut draft);
    }
    draft.text()
}

// Beside the list that is read there is seldom one that is ignored, with a lock of any kind.
fn partitions(r: &mut Rng, p: &Preset, draft: &mut Draft) {
    let word = plural(r, "partition", p.partitions.is_empty(), draft);
    let said = r.below(16) == 0;
    for part in &p.partitions {
        let lines = partition(r, part, said);
        draft.blocks.push(block(Section::Partition, &word, lines));
    }
    if word == "[[partition]]" && !p.partitions.is_empty() && r.below(32) == 0 {
        let lines = vec![("locked".into(), format!(" = {}", any_lock(r)))];
        let ignored = block(Section::Partition, "[[partitions]]", lines);
        draft.blocks.push(ignored);
    }
}

fn block(section: Section, header: &str, lines: Vec<(String, String)>) -> Block {
    Block {
        section,
        header: header.into(),
        lines,
        rank: 0,
    }
}

// Sections in any order, and applications, which the order of keys puts in theirs, each anywhere.
fn mixed(r: &mut Rng, draft: &mut Draft) {
    let ranks = [0; 5].map(|_| r.below(8));
    for block in &mut draft.blocks {
        block.rank = match block.section {
            Section::Application => r.below(8),
            section => ranks[section as usize],
        };
    }
}

// One of the two headers of a list; an empty list is seldom said to be empty.
fn plural(r: &mut Rng, word: &str, empty: bool, draft: &mut Draft) -> String {
    let word = format!("{word}{}", r.pick(&["", "", "", "s"]));
    if empty && r.below(3) == 0 {
        draft.top.push(format!("{word} = []"));
    }
    format!("[[{word}]]")
}

// Where the board leaves the chip out, the platform names it, or it is the first one.
fn front(r: &mut Rng, p: &Preset, draft: &mut Draft) {
    let (word, ..) = belongings(p.board.chip);
    let platform = p.image.platform != word || r.below(2) == 0;
    let known = if platform {
        p.image.platform == word
    } else {
        p.board.chip == Chip::D13x
    };
    let chip = !known || r.below(2) == 0;
    let fronts = [
        (Section::Board, "[board]", board(r, &p.board, chip)),
        (Section::Image, "[image]", image(r, p, platform)),
    ];
    for (section, header, lines) in fronts {
        if !lines.is_empty() || r.below(2) == 0 {
            draft.blocks.push(block(section, header, lines));
        }
    }
}

/// The lines of one block so far.
struct Lines<'a> {
    r: &'a mut Rng,
    out: Vec<(String, String)>,
}

impl Lines<'_> {
    fn of(r: &mut Rng) -> Lines<'_> {
        let out = Vec::new();
        Lines { r, out }
    }

    fn put(&mut self, key: &str, value: String) {
        self.out.push((key.into(), format!(" = {value}")));
    }

    fn text(&mut self, key: &str, value: &str) {
        let spelled = any_quoted(self.r, value);
        self.put(key, spelled);
    }

    // Mostly left out, where that means the same.
    fn unless(&mut self, default: &str, key: &str, value: &str) {
        if value != default || self.r.below(6) == 0 {
            self.text(key, value);
        }
    }

    fn maybe(&mut self, key: &str, value: &Option<String>) {
        if let Some(value) = value {
            self.text(key, value);
        }
    }

    fn path(&mut self, key: &str, value: &Option<PathBuf>) {
        if let Some(value) = value {
            self.text(key, written(value));
        }
    }

    fn number(&mut self, key: &str, n: u32) {
        let spelled = match self.r.below(4) {
            0 => format!("0x{n:x}"),
            1 => format!("0x{:04X}_{:04X}", n >> 16, n & 0xFFFF),
            _ => n.to_string(),
        };
        self.put(key, spelled);
    }

    fn amount(&mut self, key: &str, n: Option<u32>) {
        if let Some(n) = n {
            self.number(key, n);
        }
    }

    fn flag(&mut self, key: &str, value: bool) {
        if value || self.r.below(6) == 0 {
            self.put(key, value.to_string());
        }
    }

    // As one string where that can be, else as an array; items in any order.
    fn features(&mut self, key: &str, items: &[String]) {
        let mut items: Vec<_> = items.iter().map(String::as_str).collect();
        if self.r.below(2) == 0 {
            items.reverse();
        }
        let spaced = |item: &&str| item.is_empty() || item.contains([' ', ',']);
        let value = if items.iter().any(spaced) || self.r.below(2) == 0 {
            let all: Vec<_> = items.iter().map(|item| quoted(item)).collect();
            format!("[{}]", all.join(", "))
        } else {
            quoted(&items.join([" ", ","][self.r.below(2)]))
        };
        self.put(key, value);
    }
}

pub(crate) fn quoted(s: &str) -> String {
    partly_quoted(s, &[])
}

// With those characters as they are.
fn partly_quoted(s: &str, raw: &[char]) -> String {
    let mut out = String::from("\"");
    for c in s.chars() {
        match c {
            _ if raw.contains(&c) => out.push(c),
            '"' | '\\' => out.extend(['\\', c]),
            '\n' => out.push_str("\\n"),
            '\t' => out.push_str("\\t"),
            '\r' => out.push_str("\\r"),
            _ => out.push(c),
        }
    }
    out + "\""
}

// TABs and line ends as they are or by their escapes: on a new line a `#` begins a remark, and a CR at the end of one
// is dropped.
fn any_quoted(r: &mut Rng, s: &str) -> String {
    if !s.contains(['\t', '\n', '\r']) {
        return quoted(s);
    }
    let raw: &[char] = match r.below(5) {
        0 | 1 => &[],
        2 => &['\t', '\r'],
        3 if !s.contains('#') && !s.contains("\r\n") => &['\t', '\n', '\r'],
        _ if !s.contains('#') => &['\n'],
        _ => &['\t'],
    };
    partly_quoted(s, raw)
}

// A key as it is, or in quotes where it must be.
pub(crate) fn segment(s: &str) -> String {
    let plain = |b: u8| b.is_ascii_alphanumeric() || matches!(b, b'-' | b'_');
    if s.bytes().all(plain) {
        s.into()
    } else {
        quoted(s)
    }
}

fn key(r: &mut Rng, s: &str) -> String {
    let bare = segment(s);
    if r.below(4) > 0 && bare == s {
        bare
    } else {
        any_quoted(r, s)
    }
}

fn board(r: &mut Rng, b: &BoardInfo, chip: bool) -> Vec<(String, String)> {
    let (word, target, _) = belongings(b.chip);
    let mut lines = Lines::of(r);
    lines.unless("board", "name", &b.name);
    if chip {
        lines.text("chip", word);
    }
    lines.unless(target, "target", &b.target);
    lines.unless("release", "profile", &b.profile);
    lines.out
}

fn image(r: &mut Rng, p: &Preset, platform: bool) -> Vec<(String, String)> {
    let (.., media) = belongings(p.board.chip);
    let i: &ImageInfo = &p.image;
    let mut lines = Lines::of(r);
    if platform {
        lines.text("platform", &i.platform);
    }
    lines.unless("unknown", "product", &i.product);
    lines.unless("0.0.0", "version", &i.version);
    let [own, usual] = [i.media, media].map(|media| named(&MEDIA, media));
    lines.unless(&usual, "media", &own);
    lines.amount(
        "media_dev_id",
        (i.media_dev_id > 0).then_some(i.media_dev_id),
    );
    lines.unless("", "media_id", &i.media_id);
    lines.unless("", "app", &i.boot_app);
    lines.out
}

// That a partition is open is mostly not said; a lock is seldom said twice, and the last counts.
fn partition(r: &mut Rng, p: &PartitionSpec, said: bool) -> Vec<(String, String)> {
    let mut lines = Lines::of(r);
    lines.text("name", &p.name);
    lines.number("offset", p.offset);
    lines.number("size", p.size);
    if p.locked || said && lines.r.below(2) == 0 {
        if lines.r.below(8) == 0 {
            let first = any_lock(lines.r);
            lines.put("locked", first);
        }
        lines.put("locked", p.locked.to_string());
    }
    lines.out
}

// Also of the wrong kind.
fn any_lock(r: &mut Rng) -> String {
    r.pick(&["true", "false", "1", "\"true\"", "[]"]).into()
}

fn component(r: &mut Rng, c: &ComponentSpec) -> Vec<(String, String)> {
    let usual = filename_for(&c.bin, &c.file, &c.package);
    let mut lines = Lines::of(r);
    lines.unless("raw", "kind", &named(&KINDS, c.kind));
    lines.text("name", &c.name);
    lines.maybe("package", &c.package);
    lines.maybe("bin", &c.bin);
    lines.path("file", &c.file);
    lines.unless(&usual, "filename", &c.filename);
    if !c.features.is_empty() || lines.r.below(6) == 0 {
        lines.features("features", &c.features);
    }
    // none of them means the features
    if c.pbp_features != c.features || lines.r.below(6) == 0 {
        lines.features("pbp_features", &c.pbp_features);
    }
    lines.unless("", "partition", &c.partition);
    lines.unless("mtd;required", "attr", &c.attr);
    lines.maybe("target_attr", &c.target_attr);
    lines.maybe("target_filename", &c.target_filename);
    lines.flag("updater", c.updater);
    lines.amount("ram", c.ram);
    lines.path("pbp", &c.pbp);
    lines.maybe("pbp_package", &c.pbp_package);
    lines.path("private", &c.private);
    lines.amount("load_address", c.load_address);
    lines.amount("entry_point", c.entry_point);
    lines.amount("entry_offset", c.entry_offset);
    lines.amount("header_version", c.header_version);
    lines.flag("with_ext", c.with_ext);
    let reserve = u32::try_from(c.ext_reserve).expect("32 bits");
    lines.amount("ext_reserve", (reserve > 0).then_some(reserve));
    lines.out
}

fn application(r: &mut Rng, a: &AppSpec) -> Vec<(String, String)> {
    let mut lines = Lines::of(r);
    lines.unless(&a.package, "name", &a.name);
    lines.unless("app", "partition", &a.partition);
    lines.unless(&format!("{}.aic", a.name), "filename", &a.filename);
    lines.unless("mtd;optional", "attr", &a.attr);
    if !a.features.is_empty() || lines.r.below(6) == 0 {
        lines.features("features", &a.features);
    }
    lines.amount("load_address", a.load_address);
    lines.amount("entry_offset", a.entry_offset);
    lines.out
}
