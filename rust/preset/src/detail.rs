//! What a refusal's words leave open: the name, the number, and what it was held against.
use crate::clash;
use crate::entry::{called, of_whole};
use crate::fields::{self, FEATURES_MAX, Want};
use crate::lines;
use crate::near::likeliest;
use crate::refusal::{Refusal, Section};
use crate::schema::{EXT_ALIGNMENT, NAME_MAX, PartitionSpec, Preset};
use crate::shown::{plain, quoted};
use crate::tree::{Kind, Tree};
use crate::wanted;
use crate::written;

/// Of a section or an entry.
pub(crate) fn of(text: &[u8], tree: &Tree, refusal: &Refusal, app: Option<&str>) -> Option<String> {
    if refusal.number < 30 {
        return of_records(text, tree, refusal);
    }
    // What is refused by a rule has records; the board's name is in none of the details.
    let preset = Preset::read(text, b"").ok()?;
    let shown = |n: u32| at_fault(text, tree, refusal, n);
    match refusal.section {
        _ if refusal.number == 40 => of_none(text),
        Section::Text => None,
        Section::Board | Section::Image => of_board(&preset, refusal.number),
        Section::Partition => of_partition(&preset, tree, refusal, &shown),
        Section::Component => of_component(&preset, tree, refusal, &shown),
        Section::Application if refusal.number == 80 => app.map(|key| undeclared(&preset, key)),
        Section::Application => of_application(&preset, tree, refusal, &shown),
    }
}

// How the number at fault is shown.
type Number<'a> = &'a dyn Fn(u32) -> String;

// The number of the field at fault as the file has it, and in hexadecimal too where it is decimal there.
fn at_fault(text: &[u8], tree: &Tree, refusal: &Refusal, n: u32) -> String {
    let entry = tree.entry(refusal.section, refusal.place as usize);
    let value = entry.and_then(|entry| tree.field(entry, fields::meant(tree, refusal, entry)?));
    let line = value.and_then(|value| lines::making(text, value));
    let own = written::number(line.and_then(|at| written::value_in(text, at)), n.into());
    if own.contains(['x', 'X']) {
        own
    } else {
        format!("{own} ({n:#X})")
    }
}

// A text without partitions that has nothing at all, or ends no line.
fn of_none(text: &[u8]) -> Option<String> {
    if text.trim_ascii().is_empty() {
        Some("the text is empty".into())
    } else if text.contains(&b'\r') && !text.contains(&b'\n') {
        Some("no line ends: a CR alone ends none, LF or CRLF does".into())
    } else {
        None
    }
}

fn of_records(text: &[u8], tree: &Tree, refusal: &Refusal) -> Option<String> {
    let (section, number) = (refusal.section, refusal.number);
    if of_whole(tree, refusal) {
        return not_whole(tree, section);
    }
    let all = tree.list(section).len();
    if number == 25 && all > fields::most(section) {
        let (name, most) = (section.name(), fields::most(section));
        return Some(format!("{all} {name}s; the most is {most}"));
    }
    let entry = tree.entry(section, refusal.place as usize)?;
    if number == 23 {
        return Some(no_table(tree, section, entry));
    }
    let key = fields::meant(tree, refusal, entry)?;
    match tree.field(entry, key) {
        Some(value) => of_field(text, tree, refusal, (key, value)),
        None => Some(format!("no `{key}`")),
    }
}

fn not_whole(tree: &Tree, section: Section) -> Option<String> {
    let (key, is) = (tree.whole_key(section)?, tree.whole(section)?);
    let need = match section {
        Section::Partition | Section::Component => "an array of tables",
        _ => Kind::Table.name(),
    };
    let is = tree.kind(is).name();
    let headers = match section {
        Section::Board | Section::Image => format!("its header is [{key}]"),
        Section::Application => "its headers are [apps.KEY]".into(),
        _ => format!("its headers are [[{key}]]"),
    };
    Some(format!("`{key}` is {is}, not {need}; {headers}"))
}

// An entry that is no table, and its header; a field directly below `[apps]` lacks the key of its application.
fn no_table(tree: &Tree, section: Section, entry: usize) -> String {
    let is = tree.kind(entry).name();
    let name = tree.called(section, entry);
    let name = name.filter(|_| section == Section::Application);
    let field = |name: &String| fields::fields(section).iter().any(|(key, _)| key == name);
    let header = section.header();
    match name {
        Some(name) if field(&name) => {
            format!("it is {is}; `{name}` is a field of an application, whose header is {header}")
        }
        Some(name) => format!("it is {is}; its header is [apps.{}]", plain(&name)),
        None => format!("it is {is}; its header is {header}"),
    }
}

fn of_field(
    text: &[u8],
    tree: &Tree,
    refusal: &Refusal,
    (key, value): (&'static str, usize),
) -> Option<String> {
    let mut own = fields::fields(refusal.section).iter();
    let field = *own.find(|(own, _)| *own == key)?;
    let line = lines::making(text, value);
    let written = || {
        line.and_then(|at| written::value_in(text, at))
            .unwrap_or_default()
    };
    match refusal.number {
        20 if field.1 == Want::List && tree.kind(value) == Kind::Array => Some(format!(
            "`{key}` has an item that is no string; it wants {}",
            wanted::said(field, &written())
        )),
        20 => {
            let (is, wants) = (tree.kind(value).name(), wanted::said(field, &written()));
            Some(format!("`{key}` is {is}; it wants {wants}"))
        }
        21 => ranged(tree, (key, value), written()),
        22 => Some(unknown_word(key, &tree.text(value)?)),
        25 => {
            let items = fields::count(tree, value);
            Some(format!(
                "`{key}` has {items} items; the most is {FEATURES_MAX}"
            ))
        }
        _ => None,
    }
}

// A number out of range, as the file has it, and its limits in the same base.
fn ranged(tree: &Tree, (key, value): (&str, usize), written: String) -> Option<String> {
    let number = tree.integer(value)?;
    let is = written::number(Some(written), number);
    let most = if is.contains(['x', 'X']) {
        format!("{:#X}", u32::MAX)
    } else {
        u32::MAX.to_string()
    };
    Some(format!("`{key}` is {is}; it is from 0 to {most}"))
}

fn unknown_word(key: &str, word: &str) -> String {
    let choices = fields::words(key);
    let (near, all) = (likeliest(word, &choices), choices.join(", "));
    format!(
        "`{key}` is {}{}; there are {all}",
        quoted(word),
        meant(near)
    )
}

// What a word is most likely meant to be, where there is such a one.
fn meant(near: Option<&str>) -> String {
    near.map_or(String::new(), |near| format!(" ({}?)", quoted(near)))
}

fn of_board(preset: &Preset, number: u32) -> Option<String> {
    let (board, image) = (&preset.board, &preset.image);
    let chip = board.chip;
    match number {
        30 => {
            let (own, is) = (chip.default_media().name(), image.media.name());
            Some(format!("{} boots from {own}, not {is}", chip.name()))
        }
        31 => Some(format!(
            "{}, not {:?}",
            quoted(&image.platform),
            chip.name()
        )),
        33 => Some(long(&image.boot_app)),
        34 | 35 => {
            let (own, takes) = (quoted(&board.target), quoted(chip.default_target()));
            Some(format!("{own}; {} takes {takes}", chip.name()))
        }
        _ => None,
    }
}

fn long(name: &str) -> String {
    format!(
        "{} has {} bytes; the most is {NAME_MAX}",
        quoted(name),
        name.len()
    )
}

fn of_partition(preset: &Preset, tree: &Tree, refusal: &Refusal, shown: Number) -> Option<String> {
    let (partitions, place) = (&preset.partitions, refusal.place as usize);
    let own = partitions.get(place)?;
    let (offset, size) = (own.offset, own.size);
    let chip = preset.board.chip;
    let (media, block) = (chip.default_media().name(), chip.erase_size());
    let off = |what: &str, n: u32| {
        let (is, fit) = (shown(n), fitting(n, block));
        format!("`{what}` is {is}; the erase block of {media} is {block:#X}, so {fit} fits")
    };
    match refusal.number {
        41 => Some(first_at(tree, partitions, &shown(offset))),
        43 => {
            let earlier = partitions.iter().position(|p| p.name == own.name)?;
            Some(twin(tree, Section::Partition, &own.name, earlier))
        }
        44 => Some(format!("the erase block of {media} is {block:#X}")),
        45 => Some(off("offset", offset)),
        46 => Some(off("size", size)),
        47 => {
            let before = place.checked_sub(1)?;
            let end = end(partitions.get(before)?);
            let before = called(tree, Section::Partition, before);
            Some(format!(
                "it starts at {offset:#X}, {before} ends at {end:#X}"
            ))
        }
        48 => Some(format!(
            "it ends at {:#X}; the most is {:#X}",
            end(own),
            u32::MAX
        )),
        _ => None,
    }
}

// Where the first partition starts, and which one starts where it should.
fn first_at(tree: &Tree, partitions: &[PartitionSpec], offset: &str) -> String {
    let other = partitions.iter().position(|p| p.offset == 0);
    let other = other.map(|place| called(tree, Section::Partition, place));
    let other = other.map_or(String::new(), |other| format!("; {other} starts at 0"));
    format!("`offset` is {offset}{other}")
}

// The multiples of a step on both sides of a number, but 0 and those out of range.
fn fitting(n: u32, step: u32) -> String {
    let below = n - n % step;
    let both = [Some(below).filter(|n| *n > 0), below.checked_add(step)];
    let both = both.into_iter().flatten().map(|n| format!("{n:#X}"));
    both.collect::<Vec<_>>().join(" or ")
}

fn end(partition: &PartitionSpec) -> u64 {
    u64::from(partition.offset) + u64::from(partition.size)
}

// A name that an earlier entry has.
fn twin(tree: &Tree, section: Section, name: &str, earlier: usize) -> String {
    let place = match section {
        // an application is called by its key, which is not the name that is met again
        Section::Application => called(tree, section, earlier),
        _ => format!("{} {earlier}", section.name()),
    };
    format!("{}, the name of {place}", quoted(name))
}

fn of_component(preset: &Preset, tree: &Tree, refusal: &Refusal, shown: Number) -> Option<String> {
    let components = &preset.components;
    if refusal.number == 70 {
        return Some(quoted(&preset.partitions.first()?.name));
    }
    let own = components.get(refusal.place as usize)?;
    match refusal.number {
        51 => {
            let earlier = components.iter().position(|c| c.name == own.name)?;
            Some(twin(tree, Section::Component, &own.name, earlier))
        }
        52 => Some(long(&own.name)),
        58 => {
            let name = PartitionSpec::name_of(&own.partition);
            Some(unknown_partition(preset, name, "", |_| ""))
        }
        59 => {
            let reserve = u32::try_from(own.ext_reserve).ok()?;
            let fit = fitting(reserve, u32::try_from(EXT_ALIGNMENT).ok()?);
            Some(format!("`ext_reserve` is {}; {fit} fits", shown(reserve)))
        }
        60 => clash::of(preset, refusal).map(|clash| clash.said(tree)),
        _ => None,
    }
}

fn of_application(
    preset: &Preset,
    tree: &Tree,
    refusal: &Refusal,
    shown: Number,
) -> Option<String> {
    let own = preset.apps.values().nth(refusal.place as usize)?;
    match refusal.number {
        60 => clash::of(preset, refusal).map(|clash| clash.said(tree)),
        62 => Some(long(&own.name)),
        64 => Some(absent(preset, tree, refusal, &own.partition)),
        67 => Some(shut(preset, tree, refusal, &own.partition)),
        65 => {
            let earlier = preset.apps.values().position(|a| a.name == own.name)?;
            Some(twin(tree, Section::Application, &own.name, earlier))
        }
        66 => {
            let at = own.load_address?;
            let (is, fit) = (shown(at), fitting(at, 4));
            Some(format!("`load_address` is {is}; {fit} fits"))
        }
        81 => {
            let component = preset.components.iter().position(|c| c.name == own.name)?;
            Some(twin(tree, Section::Component, &own.name, component))
        }
        _ => None,
    }
}

// A partition that is not there: which one is likely meant, and which there are, each with a mark.
fn unknown_partition(
    preset: &Preset,
    name: &str,
    taken: &str,
    mark: fn(&PartitionSpec) -> &str,
) -> String {
    let all = &preset.partitions;
    let there: Vec<&str> = all.iter().map(|p| p.name.as_str()).collect();
    // an application's reference is not cut at a semicolon, though one may think so
    let cut = PartitionSpec::name_of(name);
    let near = likeliest(cut, &there);
    let are = if there.len() == 1 { "is" } else { "are" };
    let marked = all.iter().map(|p| format!("{}{}", p.name, mark(p)));
    let there = plain(&marked.collect::<Vec<_>>().join(", "));
    format!(
        "{}{}{taken}; there {are} {there}",
        quoted(name),
        meant(near)
    )
}

// Whether an application's partition stands in the text: the default's name does not, so it is told to be one.
fn referred(tree: &Tree, refusal: &Refusal) -> bool {
    let entry = tree.entry(refusal.section, refusal.place as usize);
    let written = entry.and_then(|entry| tree.field(entry, "partition"));
    written.is_some()
}

fn absent(preset: &Preset, tree: &Tree, refusal: &Refusal, partition: &str) -> String {
    let taken = if referred(tree, refusal) {
        ""
    } else {
        ", which is taken where no `partition` is written"
    };
    // one that is locked would be refused next
    let mark = |p: &PartitionSpec| if p.locked { " (locked)" } else { "" };
    unknown_partition(preset, partition, taken, mark)
}

// A partition that takes no applications, and which ones do.
fn shut(preset: &Preset, tree: &Tree, refusal: &Refusal, partition: &str) -> String {
    let taken = if referred(tree, refusal) {
        ""
    } else {
        "; it is taken where no `partition` is written"
    };
    let open = preset.partitions.iter().filter(|p| !p.locked);
    let open: Vec<&str> = open.map(|p| p.name.as_str()).collect();
    let are = match open.len() {
        0 => "none is open",
        1 => "open is ",
        _ => "open are ",
    };
    let open = plain(&open.join(", "));
    format!("{} is locked{taken}; {are}{open}", quoted(partition))
}

// An application that is not there: it may be asked for by its name, or be misspelled.
fn undeclared(preset: &Preset, key: &str) -> String {
    let declared: Vec<&str> = preset.apps.keys().map(String::as_str).collect();
    let named = preset.apps.values().find(|app| app.name == key);
    let named = named.map(|app| app.package.as_str());
    let near = meant(named.or_else(|| likeliest(key, &declared)));
    let declared = if declared.is_empty() {
        "none".into()
    } else {
        plain(&declared.join(", "))
    };
    format!("{}{near}; declared: {declared}", quoted(key))
}
