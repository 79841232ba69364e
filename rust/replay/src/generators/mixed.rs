//! Random texts of all sorts, from documents to presets that are planned, and damaged ones.
use super::random::Rng;
use super::records::random::EXAMPLES;
use super::validate::spelled;
use super::{document, names, plan, records, validate};

/// A text for every function that starts from one.
pub fn text(r: &mut Rng) -> Vec<u8> {
    match r.below(22) {
        0..=4 => document::text(r),
        5..=8 => records::random::text(r),
        9..=12 => validate::random::text(r),
        13..=15 => plan::random::text(r),
        16..=17 => bitten(r, EXAMPLES[0].as_bytes().to_vec()),
        18 => {
            let text = r.pick(&EXAMPLES).as_bytes().to_vec();
            bitten(r, text)
        }
        19 => names::text(r),
        20 => {
            let text = names::text(r);
            bitten(r, text)
        }
        _ => {
            let sound = plan::random::preset(r);
            let text = spelled::text(r, &sound).into_bytes();
            bitten(r, text)
        }
    }
}

/// One to four times damaged, at any byte.
fn bitten(r: &mut Rng, mut text: Vec<u8>) -> Vec<u8> {
    for _ in 0..1 + r.below(4) {
        bite(r, &mut text);
    }
    text
}

// A byte changed, put in or left out; seldom a short part left out or written twice.
fn bite(r: &mut Rng, text: &mut Vec<u8>) {
    if text.is_empty() {
        return;
    }
    let (at, byte) = (r.below(text.len()), byte(r, text));
    let end = text.len().min(at + 1 + r.below(40));
    match r.below(16) {
        0..=6 => text[at] = byte,
        7..=9 => text.insert(at, byte),
        10..=13 => drop(text.remove(at)),
        14 => drop(text.drain(at..end)),
        _ => {
            let part = text[at..end].to_vec();
            text.splice(at..at, part);
        }
    }
}

// Mostly one that stands in the text, or such a one with one bit changed.
fn byte(r: &mut Rng, text: &[u8]) -> u8 {
    let held = text[r.below(text.len())];
    match r.below(8) {
        0..=3 => held,
        4..=5 => held ^ 1 << r.below(8),
        6 => b' ' + r.below(95) as u8,
        _ => r.draw() as u8,
    }
}
