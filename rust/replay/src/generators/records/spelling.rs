//! The fields of every section, and ways to spell each sort of value, right and wrong.
use std::sync::LazyLock;

#[derive(Clone, Copy, Debug, PartialEq, Eq)]
pub enum Section {
    Board,
    Image,
    Partition,
    Component,
    Application,
}

/// What a field may hold.
#[derive(Clone, Copy, Debug, PartialEq, Eq)]
pub enum Sort {
    Text,
    Path,
    Chip,
    Media,
    Kind,
    Number,
    Flag,
    Features,
}

/// A field's key and what it may hold.
pub type Field = (&'static str, Sort);

pub const SECTIONS: [Section; 5] = [
    Section::Board,
    Section::Image,
    Section::Partition,
    Section::Component,
    Section::Application,
];

const BOARD: [Field; 4] = [
    ("name", Sort::Text),
    ("chip", Sort::Chip),
    ("target", Sort::Text),
    ("profile", Sort::Text),
];

const IMAGE: [Field; 7] = [
    ("platform", Sort::Chip),
    ("product", Sort::Text),
    ("version", Sort::Text),
    ("media", Sort::Media),
    ("media_dev_id", Sort::Number),
    ("media_id", Sort::Text),
    ("app", Sort::Text),
];

const PARTITION: [Field; 4] = [
    ("name", Sort::Text),
    ("offset", Sort::Number),
    ("size", Sort::Number),
    LOCK,
];

/// The field that the original does not know.
pub const LOCK: Field = ("locked", Sort::Flag);

const COMPONENT: [Field; 23] = [
    ("kind", Sort::Kind),
    ("name", Sort::Text),
    ("package", Sort::Text),
    ("bin", Sort::Text),
    ("file", Sort::Path),
    ("filename", Sort::Text),
    ("features", Sort::Features),
    ("pbp_features", Sort::Features),
    ("partition", Sort::Text),
    ("attr", Sort::Text),
    ("target_attr", Sort::Text),
    ("target_filename", Sort::Text),
    ("updater", Sort::Flag),
    ("ram", Sort::Number),
    ("pbp", Sort::Text),
    ("pbp_package", Sort::Text),
    ("private", Sort::Text),
    ("load_address", Sort::Number),
    ("entry_point", Sort::Number),
    ("entry_offset", Sort::Number),
    ("header_version", Sort::Number),
    ("with_ext", Sort::Flag),
    ("ext_reserve", Sort::Number),
];

const APPLICATION: [Field; 7] = [
    ("name", Sort::Text),
    ("partition", Sort::Text),
    ("filename", Sort::Text),
    ("attr", Sort::Text),
    ("features", Sort::Features),
    ("load_address", Sort::Number),
    ("entry_offset", Sort::Number),
];

impl Section {
    pub fn fields(self) -> &'static [Field] {
        match self {
            Section::Board => &BOARD,
            Section::Image => &IMAGE,
            Section::Partition => &PARTITION,
            Section::Component => &COMPONENT,
            Section::Application => &APPLICATION,
        }
    }

    /// Fields that are not left out without a fault.
    pub fn needed(self) -> &'static [&'static str] {
        match self {
            Section::Partition => &["name", "offset", "size"],
            Section::Component => &["name"],
            _ => &[],
        }
    }

    /// The key of the root that holds it.
    pub fn word(self) -> &'static str {
        match self {
            Section::Board => "board",
            Section::Image => "image",
            Section::Partition => "partition",
            Section::Component => "component",
            Section::Application => "apps",
        }
    }

    /// The header of its entry number `n`.
    pub fn header(self, n: usize) -> String {
        let word = self.word();
        match self {
            Section::Board | Section::Image => format!("[{word}]"),
            Section::Partition | Section::Component => format!("[[{word}]]"),
            Section::Application => format!("[{word}.p{n}]"),
        }
    }

    /// Its entries in a draft.
    pub fn entries(self) -> usize {
        match self {
            Section::Board | Section::Image => 1,
            _ => 2,
        }
    }
}

// What stands after a key: one of each kind of value.
const ANY: [&str; 12] = [
    " = \"\"",
    " = \"x\"",
    " = 0",
    " = 1",
    " = true",
    " = false",
    " = []",
    " = [\"x\"]",
    " = [1]",
    " = [[], true]",
    ".x = 1",
    ".x.y = \"z\"",
];

const TEXTS: [&str; 6] = [
    " = \"boot;mtd\"",
    " = \"a b\"",
    " = \"é\\n漢\"",
    " = \"\\\"\\\\\"",
    " = \" \"",
    " = \"0123456789012345678901234567890123\"",
];

const PATHS: [&str; 14] = [
    " = \"a/b.bin\"",
    " = \"/\"",
    " = \".\"",
    " = \"..\"",
    " = \"a/..\"",
    " = \"a/../\"",
    " = \"./\"",
    " = \"a//\"",
    " = \"a/.\"",
    " = \"...\"",
    " = \"/a\"",
    " = \"blobs/é x.img\"",
    " = \"a\\\\b\"",
    " = \"../..a\"",
];

const CHIPS: [&str; 9] = [
    " = \"d13x\"",
    " = \"d21x\"",
    " = \"d14x\"",
    " = \" d13x\"",
    " = \"d13x \"",
    " = \"D13X\"",
    " = \"d13\"",
    " = \"d21xx\"",
    " = \"é\"",
];

const MEDIA: [&str; 7] = [
    " = \"spi-nor\"",
    " = \"spi-nand\"",
    " = \"spi-no\"",
    " = \"spi-nan\"",
    " = \"SPI-NOR\"",
    " = \"spi_nor\"",
    " = \"spi-nor\\n\"",
];

const KINDS: [&str; 8] = [
    " = \"app\"",
    " = \"pbp\"",
    " = \"raw\"",
    " = \"ap\"",
    " = \"apps\"",
    " = \"App\"",
    " = \" raw\"",
    " = \"raw \"",
];

const NUMBERS: [&str; 14] = [
    " = 4294967295",
    " = 4294967296",
    " = 4294967297",
    " = -1",
    " = -0",
    " = 0xFFFF_FFFF",
    " = 0x1_0000_0000",
    " = 0x-1",
    " = +7",
    " = 9223372036854775807",
    " = -9223372036854775808",
    " = -4294967295",
    " = \"1\"",
    " = [0]",
];

const FEATURES: [&str; 18] = [
    " = \" , \"",
    " = \"b a\"",
    " = \"a,a b,,\"",
    " = \"b,a b\"",
    " = \"abc ab a abcd\"",
    " = \"a\\tb\\nc d\"",
    " = \"é \\n,z\"",
    " = [\"\"]",
    " = [\"\", \"\"]",
    " = [\"b\", \"a\", \"b\", \"\"]",
    " = [\"x y\", \"x,y\", \"x\"]",
    " = [\"ab\", \"a\", \"abc\", \"b\"]",
    " = [\"é\", \"z\", \"~\"]",
    " = [\"a\", 1]",
    " = [1, \"a\"]",
    " = [\"a\", [\"b\"]]",
    " = [\"a\", true, 1]",
    " = [[\"a\"]]",
];

/// Feature lists of so many items, all different, all the same, or empty.
pub fn many_features(count: usize) -> [String; 6] {
    let names = (0..count).map(|i| format!("f{}", i * 7 % 37));
    let spaced = names.clone().collect::<Vec<_>>().join(" ");
    let commas = names.clone().collect::<Vec<_>>().join(",, ");
    let items: String = names.map(|name| format!("\"{name}\", ")).collect();
    [
        format!(" = \"{spaced}\""),
        format!(" = \" {commas} , \""),
        format!(" = \"{}\"", "a ,".repeat(count)),
        format!(" = [{items}]"),
        format!(" = [{}]", "\"\",".repeat(count)),
        format!(" = [{}1]", "\"x\",".repeat(count - 1)),
    ]
}

/// Every path of these letters up to that many of them.
pub fn paths(letters: &[&str], most: usize) -> Vec<String> {
    let (mut out, mut from) = (vec![String::new()], 0);
    for _ in 0..most {
        let end = out.len();
        for i in from..end {
            let longer = letters.iter().map(|c| out[i].clone() + c);
            out.extend(longer.collect::<Vec<_>>());
        }
        from = end;
    }
    out
}

/// All spellings of one sort, right and wrong.
pub struct Spellings {
    pub right: Vec<String>,
    pub all: Vec<String>,
}

static SPELLINGS: LazyLock<[Spellings; 8]> = LazyLock::new(|| SORTS.map(gathered));

/// All sorts.
pub const SORTS: [Sort; 8] = [
    Sort::Text,
    Sort::Path,
    Sort::Chip,
    Sort::Media,
    Sort::Kind,
    Sort::Number,
    Sort::Flag,
    Sort::Features,
];

pub fn spellings(sort: Sort) -> &'static Spellings {
    &SPELLINGS[sort as usize]
}

fn gathered(sort: Sort) -> Spellings {
    let (own, right): (&[&str], &[&str]) = match sort {
        Sort::Text => (&TEXTS, &[" = \"\"", " = \"x\""]),
        Sort::Path => (&PATHS, &[" = \"\"", " = \"x\""]),
        Sort::Chip => (&CHIPS, &[" = \"d13x\"", " = \"d21x\""]),
        Sort::Media => (&MEDIA, &[" = \"spi-nor\"", " = \"spi-nand\""]),
        Sort::Kind => (&KINDS, &[" = \"app\"", " = \"pbp\"", " = \"raw\""]),
        Sort::Number => (
            &NUMBERS,
            &[" = 0", " = 4294967295", " = -0", " = 0x4070_0000"],
        ),
        Sort::Flag => (&[" = \"true\""], &[" = true", " = false"]),
        Sort::Features => (&FEATURES, &[" = \"\"", " = []", " = \"x\"", " = [\"x\"]"]),
    };
    let own = own.iter().copied().map(String::from);
    let mut right: Vec<_> = right.iter().copied().map(String::from).collect();
    let mut all: Vec<_> = ANY.map(String::from).into_iter().chain(own).collect();
    match sort {
        Sort::Text => right.extend(TEXTS.map(String::from)),
        Sort::Path => right.extend(PATHS.map(String::from)),
        Sort::Features => {
            right.extend(FEATURES[..13].iter().copied().map(String::from));
            all.extend([31, 32, 33].into_iter().flat_map(many_features));
        }
        _ => {}
    }
    Spellings { right, all }
}
