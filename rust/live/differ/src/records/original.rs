//! The original's answer to a preset: its records, or what its message says.
use crate::document::original::number;
use oracle::preset as theirs;
use preset::{
    AppSpec, BoardInfo, Chip, ComponentKind, ComponentSpec, ImageInfo, Media, PartitionSpec, Preset,
};
use std::ffi::OsString;
use std::os::unix::ffi::OsStringExt;
use std::path::PathBuf;

/// The number of a message, and the section and the entry where it names them.
#[derive(Clone, Copy, Debug, PartialEq, Eq)]
pub struct Told {
    pub number: u32,
    pub entry: Option<(u32, usize)>,
}

/// Its records.
pub fn read(text: &str, name: &[u8]) -> Result<Preset, Told> {
    read_and(text, name, |_| Ok(()))
}

/// The same, where what is read passes `check` too.
pub fn read_and(
    text: &str,
    name: &[u8],
    check: fn(&theirs::Preset) -> Result<(), Told>,
) -> Result<Preset, Told> {
    let read = parsed(text, name)?;
    check(&read)?;
    Ok(preset(read))
}

/// Before it is turned into ours. The board is named like the file; a name that no file has is put in
/// afterwards.
pub fn parsed(text: &str, name: &[u8]) -> Result<theirs::Preset, Told> {
    let fits = !name.is_empty() && !name.contains(&b'/');
    let stem = if fits { name } else { MARK.as_bytes() };
    let path = PathBuf::from(OsString::from_vec([stem, b".toml"].concat()));
    let read = theirs::Preset::parse(text, &path).map_err(|e| told(&e.to_string()));
    let mut preset = read?;
    if !fits && preset.board.name == MARK {
        let lent = std::str::from_utf8(name).unwrap_or("board");
        preset.board.name = lent.into();
    }
    Ok(preset)
}

// No preset of the tests has this name.
const MARK: &str = "\x01lent\x01";

// Fields have fixed names; names of partitions and packages are arbitrary text.
fn told(message: &str) -> Told {
    let plain = |number| Told {
        number,
        entry: None,
    };
    if let Some(error) = message.strip_prefix("TOML parse error: ") {
        return plain(number(error));
    }
    for (section, start) in [(3, "partition #"), (4, "component #")] {
        if let Some(rest) = message.strip_prefix(start) {
            return entry(section, rest);
        }
    }
    let missing = ["` is missing `offset`", "` is missing `size`"];
    if message.starts_with("partition `") && missing.iter().any(|end| message.ends_with(end)) {
        return plain(24);
    }
    if message.starts_with("[apps.") && message.ends_with("] is not a table") {
        return plain(23);
    }
    plain(field(message))
}

// An entry's number and what is wrong with it.
fn entry(section: u32, message: &str) -> Told {
    let (place, wrong) = message.split_once(' ').expect("an entry's number");
    let number = match wrong {
        "is not a table" => 23,
        "is missing `name`" => 24,
        _ => panic!("unknown message about an entry: {wrong}"),
    };
    let place = place.parse().expect("an entry's number");
    Told {
        number,
        entry: Some((section, place)),
    }
}

const WORDS: [&str; 3] = [
    "unsupported chip \"",
    "unsupported flash media \"",
    "unknown component kind \"",
];

fn field(message: &str) -> u32 {
    if WORDS.iter().any(|start| message.starts_with(start)) {
        return 22;
    }
    match message.split('`').nth(2) {
        Some(wrong) if wrong.starts_with(" must ") => 20,
        Some(wrong) if wrong.starts_with(" is out of range: ") => 21,
        _ => panic!("unknown message: {message}"),
    }
}

fn preset(p: theirs::Preset) -> Preset {
    Preset {
        board: board(p.board),
        image: image(p.image),
        partitions: p.partitions.into_iter().map(partition).collect(),
        components: p.components.into_iter().map(component).collect(),
        apps: p.apps.into_iter().map(application).collect(),
    }
}

pub(crate) fn board(b: theirs::BoardInfo) -> BoardInfo {
    BoardInfo {
        name: b.name,
        chip: match b.chip {
            theirs::Chip::D13x => Chip::D13x,
            theirs::Chip::D21x => Chip::D21x,
        },
        target: b.target,
        profile: b.profile,
    }
}

pub(crate) fn image(i: theirs::ImageInfo) -> ImageInfo {
    ImageInfo {
        platform: i.platform,
        product: i.product,
        version: i.version,
        media: match i.media {
            theirs::Media::SpiNor => Media::SpiNor,
            theirs::Media::SpiNand => Media::SpiNand,
        },
        media_dev_id: i.media_dev_id,
        media_id: i.media_id,
        boot_app: i.boot_app,
    }
}

pub(crate) fn partition(p: theirs::PartitionSpec) -> PartitionSpec {
    PartitionSpec {
        name: p.name,
        offset: p.offset,
        size: p.size,
        // it knows no locks
        locked: false,
    }
}

pub(crate) fn component(c: theirs::ComponentSpec) -> ComponentSpec {
    ComponentSpec {
        kind: match c.kind {
            theirs::ComponentKind::App => ComponentKind::App,
            theirs::ComponentKind::Pbp => ComponentKind::Pbp,
            theirs::ComponentKind::Raw => ComponentKind::Raw,
        },
        name: c.name,
        package: c.package,
        bin: c.bin,
        file: c.file,
        filename: c.filename,
        features: c.features,
        pbp_features: c.pbp_features,
        partition: c.partition,
        attr: c.attr,
        target_attr: c.target_attr,
        target_filename: c.target_filename,
        updater: c.updater,
        ram: c.ram,
        pbp: c.pbp,
        pbp_package: c.pbp_package,
        private: c.private,
        load_address: c.load_address,
        entry_point: c.entry_point,
        entry_offset: c.entry_offset,
        header_version: c.header_version,
        with_ext: c.with_ext,
        ext_reserve: c.ext_reserve,
    }
}

// Its key in the map is its package.
fn application((key, a): (String, theirs::AppSpec)) -> (String, AppSpec) {
    assert_eq!(key, a.package);
    let own = AppSpec {
        package: a.package,
        name: a.name,
        partition: a.partition,
        filename: a.filename,
        attr: a.attr,
        features: a.features,
        load_address: a.load_address,
        entry_offset: a.entry_offset,
    };
    (key, own)
}
