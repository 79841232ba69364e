//! The same for validation.
pub mod compare;
pub mod corners;
pub mod original;
