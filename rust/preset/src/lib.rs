//! Board presets through the proved library: read, held to the rules, planned, listed and drawn.
//!
//! Every function starts from the bytes of a preset and a name for the board that the text may
//! leave out (in the original the file's stem, see [`board_name`]); it lends the library rooms of
//! its own and answers with owned records or a [`Refusal`]. No text makes it fail otherwise.
//!
//! ```
//! use preset::{Preset, Selection};
//!
//! let text = std::fs::read("../../presets/example.toml")?;
//! let preset = Preset::validate(&text, b"example")?;
//! assert_eq!(preset.board.name, "example");
//! assert_eq!(preset.partitions[1].offset, 0x40000);
//!
//! let plan = Preset::plan(&text, b"example", &Selection::App("desk".into()))?;
//! assert_eq!(plan.stem, "desk");
//! assert_eq!(plan.required_builds[1].features, ["pan", "tilt"]);
//! # Ok::<(), Box<dyn std::error::Error>>(())
//! ```
//!
//! What a refusal means and how it is mended is in [`explain`]; where in the text it points, with
//! the line, the entry and what is wrong there, is a [`Fault`]:
//!
//! ```
//! use preset::Preset;
//!
//! let text = b"[[partition]]\nname = \"boot\"\noffset = 0\nsize = 4097\n";
//! let fault = Preset::check(text, b"desk").unwrap_err();
//! assert_eq!(fault.line, Some(4));
//! assert_eq!(fault.entry.as_deref(), Some("partition 0 \"boot\""));
//! ```
//!
//! Slips that the rules accept, such as a misspelled key or a lost header, are found by [`notes`].
#![deny(missing_docs)]
#![forbid(unsafe_code)]

mod clash;
mod detail;
mod entry;
pub mod explain;
mod fault;
mod fields;
mod lines;
pub mod map;
mod near;
pub mod notes;
pub mod owned;
pub mod picture;
mod reading;
mod refusal;
mod rooms;
mod schema;
pub mod shown;
mod svg;
mod tree;
pub mod unknown;
mod wanted;
mod ways;
mod written;

pub use fault::Fault;
pub use port::text::TEXT_MAX;
pub use refusal::{Refusal, Section};
pub use schema::*;

use std::path::Path;

// What the document on migration shows is compiled.
#[cfg(doctest)]
#[doc = include_str!("../../../docs/MIGRATION.md")]
struct Migration;

/// The board's name where the text has none: the stem of the preset's file, as in the original.
///
/// ```
/// use std::path::Path;
///
/// assert_eq!(preset::board_name(Path::new("boards/d13x-nor.toml")), "d13x-nor");
/// assert_eq!(preset::board_name(Path::new("..")), "board");
/// ```
pub fn board_name(path: &Path) -> &str {
    let stem = path.file_stem().and_then(|stem| stem.to_str());
    stem.unwrap_or("board")
}
