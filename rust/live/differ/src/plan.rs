//! The same for planning.
pub mod compare;
pub mod corners;
pub mod original;
