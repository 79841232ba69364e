//! The same for the listing.
pub mod compare;
pub mod corners;
pub mod original;
