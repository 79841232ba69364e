//! Why a preset is not accepted: 01's number, section and place.
use crate::explain;
use std::fmt;

/// The part of a preset that a refusal speaks of.
#[derive(Clone, Copy, Debug, PartialEq, Eq, Hash)]
pub enum Section {
    /// The text itself, before any table.
    Text,
    /// `[board]`.
    Board,
    /// `[image]`.
    Image,
    /// `[[partition]]`.
    Partition,
    /// `[[component]]`.
    Component,
    /// `[apps.KEY]`.
    Application,
}

impl Section {
    /// Those that have fields, in the order of reading.
    pub(crate) const READ: [Section; 5] = [
        Section::Board,
        Section::Image,
        Section::Partition,
        Section::Component,
        Section::Application,
    ];

    /// 01's number of it.
    pub fn number(self) -> u32 {
        self as u32
    }

    /// The header that its table, or each of its entries, stands below.
    pub(crate) fn header(self) -> &'static str {
        match self {
            Section::Text => "",
            Section::Board => "[board]",
            Section::Image => "[image]",
            Section::Partition => "[[partition]]",
            Section::Component => "[[component]]",
            Section::Application => "[apps.KEY]",
        }
    }

    /// Its word in messages.
    pub fn name(self) -> &'static str {
        match self {
            Section::Text => "text",
            Section::Board => "board",
            Section::Image => "image",
            Section::Partition => "partition",
            Section::Component => "component",
            Section::Application => "application",
        }
    }
}

/// Why a preset is not accepted.
///
/// ```
/// use preset::{Preset, Section};
///
/// let refusal = Preset::read(b"[board]\nname = x\n", b"desk").unwrap_err();
/// assert_eq!(refusal.number, 12);
/// assert_eq!(refusal.section, Section::Text);
/// assert_eq!(refusal.place, 2);
/// assert_eq!(refusal.to_string(), "refused 12 at line 2: not an integer");
/// ```
#[derive(Clone, Copy, Debug, PartialEq, Eq, Hash)]
pub struct Refusal {
    /// As `preset explain` and docs/REFUSALS.md have it.
    pub number: u32,
    /// What it speaks of.
    pub section: Section,
    /// In `Section::Text` the line from 1, or 0 for none; in lists the entry from 0, applications
    /// in byte order of key, and 0 too where no entry is meant.
    pub place: u32,
}

impl Refusal {
    // What the library answers; it has no other sections.
    pub(crate) fn of(number: u32, section: u32, place: u32) -> Self {
        let section = match section {
            1 => Section::Board,
            2 => Section::Image,
            3 => Section::Partition,
            4 => Section::Component,
            5 => Section::Application,
            _ => Section::Text,
        };
        Refusal {
            number,
            section,
            place,
        }
    }

    /// Whether it speaks of a list as a whole, where its place is no entry's: of those told at
    /// entry 0 these numbers always do. 20 does too where the list is no list.
    pub fn of_whole_list(&self) -> bool {
        matches!(self.number, 40 | 50 | 70 | 80)
    }

    /// The few words for its number, without its place: `unknown partition`.
    pub fn words(&self) -> &'static str {
        explain::words(self.number).unwrap_or("a rule is broken")
    }
}

impl fmt::Display for Refusal {
    fn fmt(&self, f: &mut fmt::Formatter) -> fmt::Result {
        let (number, place) = (self.number, self.place);
        write!(f, "refused {number}")?;
        match self.section {
            Section::Text if place == 0 => Ok(()),
            Section::Text => write!(f, " at line {place}"),
            Section::Board | Section::Image => write!(f, " at {}", self.section.name()),
            list if self.of_whole_list() => write!(f, " at {}s", list.name()),
            list => write!(f, " at {} {place}", list.name()),
        }?;
        write!(f, ": {}", self.words())
    }
}

impl std::error::Error for Refusal {}
