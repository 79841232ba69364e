//! A preset and its plan as owned records, under the original's names.
use crate::shown;
use std::collections::BTreeMap;
use std::fmt;
use std::path::PathBuf;
use std::str::FromStr;

/// The erase block of SPI-NOR.
pub const NOR_ERASE_SIZE: u32 = 4_096;
/// The erase block of SPI-NAND.
pub const NAND_ERASE_SIZE: u32 = 131_072;
/// What `ext_reserve` is a multiple of.
pub const EXT_ALIGNMENT: usize = 512;
/// The most bytes of a component's or an application's name.
pub const NAME_MAX: usize = 32;

/// A chip that a preset can be for.
#[derive(Clone, Copy, Debug, PartialEq, Eq, Hash)]
pub enum Chip {
    /// `d13x`, which boots from SPI-NOR.
    D13x,
    /// `d21x`, which boots from SPI-NAND.
    D21x,
}

impl Chip {
    /// Every chip.
    pub const ALL: [Self; 2] = [Self::D13x, Self::D21x];

    /// The chip that a word stands for.
    pub fn parse(value: &str) -> Option<Self> {
        Self::ALL.into_iter().find(|chip| chip.name() == value)
    }

    /// The word that presets have for it.
    pub fn name(self) -> &'static str {
        match self {
            Self::D13x => "d13x",
            Self::D21x => "d21x",
        }
    }

    /// The cargo target where a preset names none.
    pub fn default_target(self) -> &'static str {
        match self {
            Self::D13x => "riscv32imafc-unknown-none-elf",
            Self::D21x => "riscv64gc-unknown-none-elf",
        }
    }

    /// The one media that it boots from.
    pub fn default_media(self) -> Media {
        match self {
            Self::D13x => Media::SpiNor,
            Self::D21x => Media::SpiNand,
        }
    }

    /// The erase block of its media.
    pub fn erase_size(self) -> u32 {
        self.default_media().erase_size()
    }
}

/// What a board's flash is.
#[derive(Clone, Copy, Debug, PartialEq, Eq, Hash)]
pub enum Media {
    /// `spi-nor`.
    SpiNor,
    /// `spi-nand`.
    SpiNand,
}

impl Media {
    /// Every media.
    pub const ALL: [Self; 2] = [Self::SpiNor, Self::SpiNand];

    /// The media that a word stands for.
    pub fn parse(value: &str) -> Option<Self> {
        Self::ALL.into_iter().find(|media| media.name() == value)
    }

    /// The word that presets have for it.
    pub fn name(self) -> &'static str {
        match self {
            Self::SpiNor => "spi-nor",
            Self::SpiNand => "spi-nand",
        }
    }

    /// What offsets and sizes of partitions are multiples of.
    pub fn erase_size(self) -> u32 {
        match self {
            Self::SpiNor => NOR_ERASE_SIZE,
            Self::SpiNand => NAND_ERASE_SIZE,
        }
    }
}

/// How a component's payload becomes image data.
#[derive(Clone, Copy, Debug, PartialEq, Eq, Hash)]
pub enum ComponentKind {
    /// An application that becomes a loader container.
    App,
    /// A container with a PBP resource.
    Pbp,
    /// Bytes that are used as they are.
    Raw,
}

impl ComponentKind {
    /// Every kind.
    pub const ALL: [Self; 3] = [Self::App, Self::Pbp, Self::Raw];

    /// The kind that a word stands for.
    pub fn parse(value: &str) -> Option<Self> {
        Self::ALL.into_iter().find(|kind| kind.name() == value)
    }

    /// The word that presets have for it.
    pub fn name(self) -> &'static str {
        match self {
            Self::App => "app",
            Self::Pbp => "pbp",
            Self::Raw => "raw",
        }
    }
}

/// A word that stands for no [`Chip`], [`Media`] or [`ComponentKind`]; it names those that do.
///
/// ```
/// use preset::{Chip, ComponentKind};
///
/// assert_eq!("d13x".parse(), Ok(Chip::D13x));
/// assert_eq!(ComponentKind::Raw.to_string(), "raw");
///
/// let unknown = "d12x".parse::<Chip>().unwrap_err();
/// assert_eq!(unknown.choices, ["d13x", "d21x"]);
/// assert_eq!(unknown.to_string(), "unknown chip \"d12x\"; there are d13x, d21x");
/// ```
#[derive(Clone, Debug, PartialEq, Eq)]
pub struct UnknownWord {
    /// The word, as it was given.
    pub word: String,
    /// What it was to stand for: `chip`, `media` or `kind`.
    pub sort: &'static str,
    /// Every word that stands for one.
    pub choices: Vec<&'static str>,
}

impl fmt::Display for UnknownWord {
    fn fmt(&self, f: &mut fmt::Formatter) -> fmt::Result {
        let (word, choices) = (shown::quoted(&self.word), self.choices.join(", "));
        write!(f, "unknown {} {word}; there are {choices}", self.sort)
    }
}

impl std::error::Error for UnknownWord {}

// What has a word of its own is shown by it, and found by it.
macro_rules! by_word {
    ($($named:ty: $sort:literal;)*) => {
        $(
            /// Its word.
            impl fmt::Display for $named {
                fn fmt(&self, f: &mut fmt::Formatter) -> fmt::Result {
                    f.pad(self.name())
                }
            }

            /// By its word, letter for letter.
            impl FromStr for $named {
                type Err = UnknownWord;

                fn from_str(word: &str) -> Result<Self, UnknownWord> {
                    Self::parse(word).ok_or_else(|| UnknownWord {
                        word: word.into(),
                        sort: $sort,
                        choices: Self::ALL.map(Self::name).into(),
                    })
                }
            }
        )*
    };
}

by_word! {
    Chip: "chip";
    Media: "media";
    ComponentKind: "kind";
}

/// `[board]`.
#[derive(Clone, Debug, PartialEq, Eq)]
pub struct BoardInfo {
    /// The board's name; the lent one where the text has none.
    pub name: String,
    /// What is on the board.
    pub chip: Chip,
    /// The target triple that packages are built for.
    pub target: String,
    /// The profile they are built with.
    pub profile: String,
}

/// `[image]`; `boot_app` is its `app`.
#[derive(Clone, Debug, PartialEq, Eq)]
pub struct ImageInfo {
    /// The chip's word.
    pub platform: String,
    /// The product's name.
    pub product: String,
    /// The image's version.
    pub version: String,
    /// What the flash is.
    pub media: Media,
    /// The media's device number.
    pub media_dev_id: u32,
    /// The media's id.
    pub media_id: String,
    /// The name of the application that a normal boot jumps to; empty: the first valid one.
    pub boot_app: String,
}

/// One `[[partition]]`.
#[derive(Clone, Debug, PartialEq, Eq)]
pub struct PartitionSpec {
    /// What components and applications call it.
    pub name: String,
    /// Where it starts on the flash, in bytes.
    pub offset: u32,
    /// How many bytes it has.
    pub size: u32,
    /// Whether no application may lie in it; false where the preset does not say so.
    pub locked: bool,
}

impl PartitionSpec {
    /// The name that a reference stands for: cut at its first `;`, and trimmed.
    pub fn name_of(reference: &str) -> &str {
        let cut = reference.split(';').next().unwrap_or(reference);
        let kept = port::text::trim(cut.as_bytes());
        cut.get(kept.from..kept.end).unwrap_or(cut)
    }
}

/// One `[[component]]`; paths are as written.
#[derive(Clone, Debug, PartialEq, Eq)]
pub struct ComponentSpec {
    /// How its payload becomes image data.
    pub kind: ComponentKind,
    /// Its name in the image.
    pub name: String,
    /// The package that is built for it.
    pub package: Option<String>,
    /// The binary's name where it is not the package's.
    pub bin: Option<String>,
    /// The path of a finished file.
    pub file: Option<PathBuf>,
    /// The partition that it goes to, as a reference.
    pub partition: String,
    /// Its attributes.
    pub attr: String,
    /// Its file name in the image.
    pub filename: String,
    /// Overrides `attr` in the partition, for an updater with one.
    pub target_attr: Option<String>,
    /// Overrides `filename` there.
    pub target_filename: Option<String>,
    /// Whether it runs from memory before the flash is written.
    pub updater: bool,
    /// The package's features.
    pub features: Vec<String>,
    /// The features of `pbp_package`.
    pub pbp_features: Vec<String>,
    /// Where an updater is loaded to.
    pub ram: Option<u32>,
    /// The path of a finished PBP file.
    pub pbp: Option<PathBuf>,
    /// The package that builds its PBP.
    pub pbp_package: Option<String>,
    /// The path of a private file.
    pub private: Option<PathBuf>,
    /// Where it is loaded to.
    pub load_address: Option<u32>,
    /// Where it is entered.
    pub entry_point: Option<u32>,
    /// Where it is entered, as an offset.
    pub entry_offset: Option<u32>,
    /// The version in its header.
    pub header_version: Option<u32>,
    /// Whether a loader is appended after its PBP.
    pub with_ext: bool,
    /// Bytes kept free between the two.
    pub ext_reserve: usize,
}

/// One `[apps.PACKAGE]`.
#[derive(Clone, Debug, PartialEq, Eq)]
pub struct AppSpec {
    /// Its package: the key that it stands under.
    pub package: String,
    /// Its name in the image.
    pub name: String,
    /// The partition that it goes to.
    pub partition: String,
    /// Its file name in the image.
    pub filename: String,
    /// Its attributes.
    pub attr: String,
    /// The package's features.
    pub features: Vec<String>,
    /// Where it is loaded to.
    pub load_address: Option<u32>,
    /// Where it is entered, as an offset.
    pub entry_offset: Option<u32>,
}

/// A preset's records. The original's `path` is left out: no file is known here.
#[derive(Clone, Debug, PartialEq, Eq)]
pub struct Preset {
    /// `[board]`.
    pub board: BoardInfo,
    /// `[image]`.
    pub image: ImageInfo,
    /// In the order of the text, which is that of their offsets.
    pub partitions: Vec<PartitionSpec>,
    /// In the order of the text.
    pub components: Vec<ComponentSpec>,
    /// By package, so in byte order.
    pub apps: BTreeMap<String, AppSpec>,
}

/// What to plan.
#[derive(Clone, Debug, PartialEq, Eq)]
pub enum Selection {
    /// The boot chain alone.
    Bootloader,
    /// The boot chain and the application of that package.
    App(String),
}

impl Selection {
    /// The package of the application, where one is selected.
    pub fn package(&self) -> Option<&str> {
        match self {
            Selection::Bootloader => None,
            Selection::App(package) => Some(package),
        }
    }
}

/// Where a payload comes from.
#[derive(Clone, Debug, PartialEq, Eq)]
pub enum Source {
    /// A package that is built.
    Package {
        /// The package.
        package: String,
        /// The binary's name.
        bin: String,
        /// The features that it is built with.
        features: Vec<String>,
    },
    /// As written: joining it to the preset's folder is the caller's.
    File(PathBuf),
}

/// A component of a plan.
#[derive(Clone, Debug, PartialEq, Eq)]
pub struct PlannedComponent {
    /// Its record, without `pbp`, and without `file` where that is its source.
    pub spec: ComponentSpec,
    /// Where its payload comes from.
    pub source: Source,
    /// Where its PBP comes from.
    pub pbp_source: Option<Source>,
    /// The partition that `spec.partition` refers to; the original has no such field.
    pub partition: Option<PartitionSpec>,
}

/// A package to build, with the features of its first use.
#[derive(Clone, Debug, PartialEq, Eq)]
pub struct BuildRequirement {
    /// The package.
    pub package: String,
    /// The binary's name.
    pub bin: String,
    /// The features that it is built with.
    pub features: Vec<String>,
}

/// A preset composed with a [`Selection`]. The original's `path` is left out.
#[derive(Clone, Debug, PartialEq, Eq)]
pub struct ImagePlan {
    /// The preset's.
    pub board: BoardInfo,
    /// The preset's.
    pub image: ImageInfo,
    /// The preset's.
    pub partitions: Vec<PartitionSpec>,
    /// The preset's, with the application directly before the first that has a partition.
    pub components: Vec<PlannedComponent>,
    /// In first use.
    pub required_builds: Vec<BuildRequirement>,
    /// What the image's file is named by.
    pub stem: String,
}

impl Preset {
    /// The application of that package.
    pub fn app(&self, package: &str) -> Option<&AppSpec> {
        self.apps.get(package)
    }
}

impl ImagePlan {
    /// The partition that a reference stands for.
    pub fn partition(&self, reference: &str) -> Option<&PartitionSpec> {
        let name = PartitionSpec::name_of(reference);
        self.partitions.iter().find(|p| p.name == name)
    }
}
