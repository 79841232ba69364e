//! What the proved library exports, and safe wrappers over it.
#![deny(missing_docs)]

mod boundary;
pub mod document;
pub mod listing;
pub mod plans;
pub mod records;
pub mod text;
pub mod value;
pub mod views;

/// The archive that is linked, for hosts in C.
pub const ARCHIVE: &str = env!("PRESET_LIB");
