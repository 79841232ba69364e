//! The same for integers, strings, keys and values.
pub mod compare;
pub mod corners;
pub mod original;
