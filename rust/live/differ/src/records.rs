//! The same for records.
pub mod compare;
pub mod corners;
pub mod original;
