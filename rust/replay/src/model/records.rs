//! From tree to records by 01's rules, with its limits.
use super::answer::document::{Table, Value};
use super::answer::records::{Answer, Preset, Read, Refusal};
use super::document;
use preset::{
    AppSpec, BoardInfo, Chip, ComponentKind, ComponentSpec, ImageInfo, Media, PartitionSpec,
};
use std::collections::{BTreeMap, BTreeSet};
use std::path::{Path, PathBuf};
use std::sync::LazyLock;

/// The most entries of each list, and the most items of one feature list.
pub struct Limits {
    pub partitions: usize,
    pub components: usize,
    pub applications: usize,
    pub features: usize,
}

/// 01's.
pub const LIMITS: Limits = Limits {
    partitions: 32,
    components: 64,
    applications: 64,
    features: 32,
};

/// None at all, as in the original.
pub const UNLIMITED: Limits = Limits {
    partitions: usize::MAX,
    components: usize::MAX,
    applications: usize::MAX,
    features: usize::MAX,
};

/// First the text by its lines, then the records by its tree; `name` is lent for the board.
pub fn read(text: &[u8], name: &[u8]) -> Read {
    read_within(text, name, &LIMITS)
}

/// The same with other limits.
pub fn read_within(text: &[u8], name: &[u8], limits: &Limits) -> Read {
    let told = |(number, place)| Refusal {
        number,
        section: TEXT,
        place,
    };
    let text = document::read(text).map_err(told)?;
    let preset = preset(&text.root, name, limits)?;
    Ok(Answer { text, preset })
}

const TEXT: u32 = 0;
pub(crate) const BOARD: u32 = 1;
pub(crate) const IMAGE: u32 = 2;
pub(crate) const PARTITION: u32 = 3;
pub(crate) const COMPONENT: u32 = 4;
pub(crate) const APPLICATION: u32 = 5;

/// The records of a tree.
pub fn preset(root: &Table, name: &[u8], limits: &Limits) -> Result<Preset, Refusal> {
    let board = table(root, BOARD, "board")?;
    let image = table(root, IMAGE, "image")?;
    let chip = chip(&board, &image)?;
    Ok(Preset {
        board: board_info(&board, name, chip)?,
        image: image_info(&image, chip)?,
        partitions: partitions(root, limits)?,
        components: components(root, limits)?,
        apps: applications(root, limits)?,
    })
}

type Field<T> = Result<T, Refusal>;

/// The fields of one table, and where their faults are told.
struct Fields<'a> {
    table: Option<&'a Table>,
    section: u32,
    place: usize,
}

impl<'a> Fields<'a> {
    fn fault<T>(&self, number: u32) -> Field<T> {
        Err(Refusal {
            number,
            section: self.section,
            place: self.place,
        })
    }

    fn get(&self, key: &str) -> Option<&'a Value> {
        self.table?.get(key.as_bytes())
    }

    fn text(&self, key: &str) -> Field<Option<String>> {
        match self.get(key) {
            None => Ok(None),
            Some(Value::Str(s)) => Ok(Some(characters(s))),
            Some(_) => self.fault(20),
        }
    }

    fn text_or(&self, key: &str, default: &str) -> Field<String> {
        Ok(self.text(key)?.unwrap_or(default.into()))
    }

    fn path(&self, key: &str) -> Field<Option<PathBuf>> {
        Ok(self.text(key)?.map(PathBuf::from))
    }

    fn number(&self, key: &str) -> Field<Option<u32>> {
        match self.get(key) {
            None => Ok(None),
            Some(Value::Int(i @ 0..=4_294_967_295)) => Ok(Some(*i as u32)),
            Some(Value::Int(_)) => self.fault(21),
            Some(_) => self.fault(20),
        }
    }

    fn flag(&self, key: &str) -> Field<bool> {
        match self.get(key) {
            None => Ok(false),
            Some(Value::Bool(b)) => Ok(*b),
            Some(_) => self.fault(20),
        }
    }

    // The length is checked before the items' kinds.
    fn features(&self, key: &str, most: usize) -> Field<Vec<String>> {
        let items = match self.get(key) {
            None => return Ok(Vec::new()),
            Some(Value::Str(s)) => words(s),
            Some(Value::Array(items)) => items.clone(),
            Some(_) => return self.fault(20),
        };
        if items.len() > most {
            return self.fault(25);
        }
        let mut out = BTreeSet::new();
        for item in items {
            match item {
                Value::Str(s) => out.insert(characters(&s)),
                _ => return self.fault(20),
            };
        }
        Ok(out.into_iter().collect())
    }

    fn needed<T>(&self, field: Option<T>) -> Field<T> {
        field.map_or_else(|| self.fault(24), Ok)
    }

    fn known<T: Copy>(&self, word: &str, words: &[(&str, T)]) -> Field<T> {
        let known = words.iter().find(|(w, _)| *w == word);
        known.map_or_else(|| self.fault(22), |(_, meant)| Ok(*meant))
    }
}

// A text that was read is UTF-8, and so are its strings and keys.
fn characters(s: &[u8]) -> String {
    str::from_utf8(s).expect("characters").into()
}

// The pieces between spaces and commas that are not empty.
fn words(s: &[u8]) -> Vec<Value> {
    let pieces = s.split(|b| matches!(b, b' ' | b','));
    let kept = pieces.filter(|piece| !piece.is_empty());
    kept.map(|piece| Value::Str(piece.to_vec())).collect()
}

// A table of the root, or none.
fn table<'a>(root: &'a Table, section: u32, key: &str) -> Field<Fields<'a>> {
    let fields = |table| Fields {
        table,
        section,
        place: 0,
    };
    match root.get(key.as_bytes()) {
        None => Ok(fields(None)),
        Some(Value::Table(table)) => Ok(fields(Some(table))),
        Some(_) => fields(None).fault(20),
    }
}

/// The words of presets, with what each stands for.
pub(crate) const CHIPS: [(&str, Chip); 2] = [("d13x", Chip::D13x), ("d21x", Chip::D21x)];
pub(crate) const MEDIA: [(&str, Media); 2] =
    [("spi-nor", Media::SpiNor), ("spi-nand", Media::SpiNand)];
pub(crate) const KINDS: [(&str, ComponentKind); 3] = [
    ("app", ComponentKind::App),
    ("pbp", ComponentKind::Pbp),
    ("raw", ComponentKind::Raw),
];

pub(crate) const LOCKS: [(&str, bool); 2] = [("open", false), ("locked", true)];

pub(crate) fn named<T: PartialEq>(words: &[(&str, T)], meant: T) -> String {
    let word = words.iter().find(|(_, m)| *m == meant);
    word.expect("each has a word").0.into()
}

// Both words are texts before one of them is looked up, where it was found.
fn chip(board: &Fields, image: &Fields) -> Field<Chip> {
    let words = (board.text("chip")?, image.text("platform")?);
    match words {
        (Some(word), _) => board.known(&word, &CHIPS),
        (None, Some(word)) => image.known(&word, &CHIPS),
        (None, None) => Ok(Chip::D13x),
    }
}

// What a chip is called, is built for and boots from, where a preset does not say.
pub(crate) fn belongings(chip: Chip) -> (&'static str, &'static str, Media) {
    match chip {
        Chip::D13x => ("d13x", "riscv32imafc-unknown-none-elf", Media::SpiNor),
        Chip::D21x => ("d21x", "riscv64gc-unknown-none-elf", Media::SpiNand),
    }
}

fn board_info(board: &Fields, name: &[u8], chip: Chip) -> Field<BoardInfo> {
    let lent = std::str::from_utf8(name).unwrap_or("board");
    let (_, target, _) = belongings(chip);
    Ok(BoardInfo {
        name: board.text_or("name", lent)?,
        chip,
        target: board.text_or("target", target)?,
        profile: board.text_or("profile", "release")?,
    })
}

fn image_info(image: &Fields, chip: Chip) -> Field<ImageInfo> {
    let (word, _, media) = belongings(chip);
    Ok(ImageInfo {
        platform: image.text_or("platform", word)?,
        product: image.text_or("product", "unknown")?,
        version: image.text_or("version", "0.0.0")?,
        media: match image.text("media")? {
            Some(word) => image.known(&word, &MEDIA)?,
            None => media,
        },
        media_dev_id: image.number("media_dev_id")?.unwrap_or(0),
        media_id: image.text_or("media_id", "")?,
        boot_app: image.text_or("app", "")?,
    })
}

// The items of a list of the root: of the plural only where there is no singular.
fn list<'a>(root: &'a Table, section: u32, keys: [&str; 2], most: usize) -> Field<&'a [Value]> {
    let told = |number, place| Refusal {
        number,
        section,
        place,
    };
    let found = keys.iter().find_map(|key| root.get(key.as_bytes()));
    match found {
        None => Ok(&[]),
        Some(Value::Array(items)) if items.len() > most => Err(told(25, most)),
        Some(Value::Array(items)) => Ok(items),
        Some(_) => Err(told(20, 0)),
    }
}

// The table that an entry is.
fn entry(value: &Value, section: u32, place: usize) -> Field<Fields<'_>> {
    let fields = |table| Fields {
        table,
        section,
        place,
    };
    match value {
        Value::Table(table) => Ok(fields(Some(table))),
        _ => fields(None).fault(23),
    }
}

fn partitions(root: &Table, limits: &Limits) -> Field<Vec<PartitionSpec>> {
    let keys = ["partition", "partitions"];
    let items = list(root, PARTITION, keys, limits.partitions)?;
    let each = |(place, value)| partition(entry(value, PARTITION, place)?);
    items.iter().enumerate().map(each).collect()
}

fn partition(fields: Fields) -> Field<PartitionSpec> {
    Ok(PartitionSpec {
        name: fields.needed(fields.text("name")?)?,
        offset: fields.needed(fields.number("offset")?)?,
        size: fields.needed(fields.number("size")?)?,
        locked: fields.flag("locked")?,
    })
}

fn components(root: &Table, limits: &Limits) -> Field<Vec<ComponentSpec>> {
    let keys = ["component", "components"];
    let items = list(root, COMPONENT, keys, limits.components)?;
    let each = |(place, value)| component(entry(value, COMPONENT, place)?, limits.features);
    items.iter().enumerate().map(each).collect()
}

fn kind(fields: &Fields) -> Field<ComponentKind> {
    match fields.text("kind")? {
        Some(word) => fields.known(&word, &KINDS),
        None => Ok(ComponentKind::Raw),
    }
}

// A struct's fields are read in the order in which they are written here, which is 01's.
fn component(fields: Fields, most: usize) -> Field<ComponentSpec> {
    let kind = kind(&fields)?;
    let name = fields.needed(fields.text("name")?)?;
    let package = fields.text("package")?;
    let bin = fields.text("bin")?;
    let file = fields.path("file")?;
    let filename = fields.text("filename")?;
    let filename = filename.unwrap_or_else(|| filename_for(&bin, &file, &package));
    let features = fields.features("features", most)?;
    let pbp_features = match fields.features("pbp_features", most)? {
        none if none.is_empty() => features.clone(),
        own => own,
    };
    Ok(ComponentSpec {
        kind,
        name,
        package,
        bin,
        file,
        filename,
        features,
        pbp_features,
        partition: fields.text_or("partition", "")?,
        attr: fields.text_or("attr", "mtd;required")?,
        target_attr: fields.text("target_attr")?,
        target_filename: fields.text("target_filename")?,
        updater: fields.flag("updater")?,
        ram: fields.number("ram")?,
        pbp: fields.path("pbp")?,
        pbp_package: fields.text("pbp_package")?,
        private: fields.path("private")?,
        load_address: fields.number("load_address")?,
        entry_point: fields.number("entry_point")?,
        entry_offset: fields.number("entry_offset")?,
        header_version: fields.number("header_version")?,
        with_ext: fields.flag("with_ext")?,
        ext_reserve: fields.number("ext_reserve")?.unwrap_or(0) as usize,
    })
}

// With every default.
static BARE: LazyLock<ComponentSpec> = LazyLock::new(|| {
    let read = read(b"[[component]]\nname = \"\"", b"");
    read.expect("records").preset.components.remove(0)
});

/// A component with nothing but a name.
pub fn bare(name: &str) -> ComponentSpec {
    ComponentSpec {
        name: name.into(),
        ..BARE.clone()
    }
}

// `bin`, else the file's name, else `package`, else `component.bin`.
pub(crate) fn filename_for(
    bin: &Option<String>,
    file: &Option<PathBuf>,
    package: &Option<String>,
) -> String {
    let named = file.as_deref().map(written).and_then(file_name);
    let first = bin.as_deref().or(named).or(package.as_deref());
    first.unwrap_or("component.bin").into()
}

/// A path of a preset as it is written there: `Path` takes `a//b` and `a/b` for the same.
pub fn written(path: &Path) -> &str {
    path.to_str().expect("characters")
}

/// The last piece between slashes that is neither empty nor `.`; none where that is `..`.
pub fn file_name(path: &str) -> Option<&str> {
    let pieces = path.split('/');
    let last = pieces.rev().find(|piece| !matches!(*piece, "" | "."));
    last.filter(|piece| *piece != "..")
}

// In byte order of key, as the tree has them.
fn applications(root: &Table, limits: &Limits) -> Field<BTreeMap<String, AppSpec>> {
    let Some(apps) = table(root, APPLICATION, "apps")?.table else {
        return Ok(BTreeMap::new());
    };
    if apps.len() > limits.applications {
        return Err(Refusal {
            number: 25,
            section: APPLICATION,
            place: limits.applications,
        });
    }
    let each = |(place, (key, value)): (usize, (&Vec<u8>, &Value))| {
        let (key, fields) = (characters(key), entry(value, APPLICATION, place)?);
        Ok((key.clone(), application(key, fields, limits.features)?))
    };
    apps.iter().enumerate().map(each).collect()
}

fn application(key: String, fields: Fields, most: usize) -> Field<AppSpec> {
    let name = fields.text("name")?.unwrap_or(key.clone());
    let file = format!("{name}.aic");
    Ok(AppSpec {
        package: key,
        name,
        partition: fields.text_or("partition", "app")?,
        filename: fields.text("filename")?.unwrap_or(file),
        attr: fields.text_or("attr", "mtd;optional")?,
        features: fields.features("features", most)?,
        load_address: fields.number("load_address")?,
        entry_offset: fields.number("entry_offset")?,
    })
}
