//! Presets whose records are read or refused.
pub mod any;
pub mod draft;
pub mod edits;
pub mod random;
pub mod spelling;
