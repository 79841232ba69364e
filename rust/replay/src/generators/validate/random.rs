//! Random presets: sound ones, mostly with a fault or two, or moved to a boundary.
use super::faults::FAULTS;
use super::near::NEAR;
use super::{sound, spelled};
use crate::generators::document::damage;
use crate::generators::random::Rng;
use crate::generators::records::random as records;
use crate::model::answer::records::Preset;

/// A text: mostly drawn from records, seldom one whose records may not be read.
pub fn text(r: &mut Rng) -> Vec<u8> {
    let mut text = match r.below(50) {
        0 => records::text(r),
        1 => records::changed(r),
        _ => {
            let preset = preset(r);
            spelled::text(r, &preset).into_bytes()
        }
    };
    if r.below(50) == 0 {
        damage(r, &mut text);
    }
    text
}

/// Its records.
pub fn preset(r: &mut Rng) -> Preset {
    let mut p = match r.below(150) {
        0 => sound::wide(r),
        _ => sound::preset(r),
    };
    match r.below(10) {
        0 => {}
        1..=3 => fault(r, &mut p),
        4..=6 => {
            fault(r, &mut p);
            fault(r, &mut p);
        }
        _ => {
            NEAR[r.below(NEAR.len())](r, &mut p);
            if r.below(4) == 0 {
                fault(r, &mut p);
            }
        }
    }
    p
}

fn fault(r: &mut Rng, p: &mut Preset) {
    let (_, fault) = FAULTS[r.below(FAULTS.len())];
    let n = r.below(64);
    fault(p, n, r);
}
