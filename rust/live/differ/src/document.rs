//! The same for whole texts.
pub mod compare;
pub mod corners;
pub mod original;
