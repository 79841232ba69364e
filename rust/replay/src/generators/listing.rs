//! Random presets to list: half of them mostly accepted, many with odd names, half of all sorts.
use super::random::Rng;
use super::{mixed, names, plan};

pub fn text(r: &mut Rng) -> Vec<u8> {
    match r.below(4) {
        0 => plan::random::text(r),
        1 => names::text(r),
        _ => mixed::text(r),
    }
}
