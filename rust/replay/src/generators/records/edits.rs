//! Edits to try: every field in every spelling, all that is not about a field, faults in pairs.
use super::draft::{Draft, Edit};
use super::spelling::{Field, SECTIONS, Section, Sort, many_features, spellings};

// Keys of the root that hold something else, entries that are no tables, lists of the other name.
const INSTEAD: [&str; 35] = [
    "board = 1",
    "board = \"x\"",
    "board = false",
    "board = []",
    "board.chip = \"d21x\"",
    "[[board]]",
    "image = 1",
    "image = \"x\"",
    "image = [[]]",
    "image.platform = \"d21x\"",
    "[[image]]",
    "partition = 1",
    "partition = \"x\"",
    "partition = true",
    "partition = []",
    "partition = [\"x\", true]",
    "partitions = 1",
    "partitions = [[]]",
    "[partition]",
    "[partitions]\nname = 1",
    "[[partitions]]\nname = \"q\"\noffset = 1\nsize = 2",
    "[[partitions]]\nname = \"q\"\noffset = 1\nsize = 2\nlocked = true",
    "[[partitions]]\nname = \"q\"\noffset = 1\nsize = 2\nlocked = 1",
    "component = 1",
    "component = \"x\"",
    "component = [\"x\", 1]",
    "components = false",
    "[component]",
    "[[components]]\nname = \"q\"",
    "apps = 1",
    "apps = \"x\"",
    "apps = []",
    "[[apps]]",
    "[apps]",
    "apps.a.name = \"x\"",
];

const BESIDE: [&str; 17] = [
    "board = 1",
    "image = []",
    "partition = []",
    "partition = [1]",
    "partitions = 1",
    "[partition.name]",
    "[partitions]\nname = 1",
    "[[partitions]]\nname = \"q\"\noffset = 1\nsize = 2",
    "[[partitions]]\nname = \"q\"\noffset = 1\nsize = 2\nlocked = true",
    "[[partitions]]\nname = \"q\"\noffset = 1\nsize = 2\nlocked = 1",
    "[[partition]]\nlocked = \"x\"",
    "component = [[]]",
    "components = 1",
    "[[components]]\nname = 1",
    "[apps]\np1 = 1",
    "[apps]\nzz = \"x\"",
    "[[apps.aa]]",
];

// Lists around their limits.
const COUNTS: [(Section, [usize; 5]); 3] = [
    (Section::Partition, [0, 31, 32, 33, 34]),
    (Section::Component, [0, 63, 64, 65, 66]),
    (Section::Application, [0, 63, 64, 65, 66]),
];

/// Every field of every entry left out and in every spelling, and all that is not about a field.
pub fn edits() -> Vec<Edit> {
    let mut out = wholes();
    for section in SECTIONS {
        for entry in 0..section.entries() {
            let each = section.fields().iter();
            out.extend(each.flat_map(|field| spelled(section, entry, field)));
        }
    }
    out
}

fn spelled(section: Section, entry: usize, (key, sort): &Field) -> Vec<Edit> {
    let rests = spellings(*sort).all.iter().cloned().map(Some);
    let each = rests.chain([None]);
    each.map(|rest| Edit::Field(section, entry, key, rest))
        .collect()
}

/// Those that are not about a field.
pub fn wholes() -> Vec<Edit> {
    let lists = COUNTS.iter().flat_map(|(section, counts)| {
        let each = counts.iter();
        each.map(|count| Edit::Count(*section, *count))
    });
    let texts = INSTEAD.map(Edit::Instead).into_iter();
    texts.chain(BESIDE.map(Edit::Beside)).chain(lists).collect()
}

// What is wrong with a field of each sort; one of each number that it can be refused with.
fn wrong(sort: Sort) -> Vec<String> {
    let own: &[&str] = match sort {
        Sort::Text | Sort::Path => &[" = 1"],
        Sort::Chip | Sort::Media | Sort::Kind => &[" = true", " = \"z\""],
        Sort::Number => &[" = \"1\"", " = 4294967296"],
        Sort::Flag => &[" = 1"],
        Sort::Features => &[".x = 1", " = [\"a\", 1]"],
    };
    let mut out: Vec<_> = own.iter().copied().map(String::from).collect();
    if sort == Sort::Features {
        out.extend(many_features(33).into_iter().skip(5));
    }
    out
}

/// Faults to be put in pairs: of each field, of lists, of keys of the root.
pub fn faults() -> Vec<Edit> {
    let mut out = Vec::new();
    for section in SECTIONS {
        for (key, sort) in section.fields() {
            let rests = wrong(*sort).into_iter().map(Some);
            let missing = section.needed().contains(key).then_some(None);
            let each = rests.chain(missing);
            out.extend(each.map(|rest| Edit::Field(section, 0, key, rest)));
        }
        let second = Edit::Field(section, 1, section.fields()[0].0, Some(" = []".into()));
        out.extend((section.entries() > 1).then_some(second));
    }
    out.extend(COUNTS.map(|(section, counts)| Edit::Count(section, counts[3])));
    let roots = [
        "[[board]]",
        "[[image]]",
        "[partition]",
        "[component]",
        "[[apps]]",
    ];
    out.extend(roots.map(Edit::Instead));
    let entries = ["partition = [1]", "component = [\"x\"]", "[apps]\np0 = 1"];
    out.extend(entries.map(Edit::Beside));
    out.push(Edit::Instead("partitions = 1"));
    out
}

/// A draft with two faults, the first of them in front.
pub fn paired(base: &Draft, first: &Edit, second: &Edit) -> String {
    let mut draft = base.clone();
    second.apply(&mut draft, 2);
    first.apply(&mut draft, 0);
    draft.text()
}

/// A draft with one edit.
pub fn edited(base: &Draft, edit: &Edit) -> String {
    let mut draft = base.clone();
    edit.apply(&mut draft, 1);
    draft.text()
}
