//! How much of a call is the emptying of the lent rooms.
use crate::presets::NAME;
use crate::texts::{EXAMPLES, example};
use crate::timing::{timed, turns};
use port::records::validate;
use port::value::{STORE_MIN, TREE_MIN};
use replay::generators::large::full;
use std::hint::black_box;

const HEAD: &str = "\
| preset | bytes | runs | emptying | whole call | share |
|---|---|---|---|---|---|";
const NOTE: &str = "
Emptying is the time of a `preset_validate` that is lent a store one byte too short: it empties both rooms,
98303 bytes, says 17 and does nothing else. The whole call is `preset_validate` of the preset in rooms that
take it. Both find in the rooms what the preset left there before.";

pub fn emptying() {
    println!("\n{HEAD}");
    for name in EXAMPLES {
        row(name, &example(name));
    }
    row("all lists full", &full());
    println!("{NOTE}");
}

fn row(name: &str, text: &str) {
    let (mut store, mut tree) = (vec![0; STORE_MIN], vec![0; TREE_MIN]);
    let mut call = |length: usize, number| {
        let text = black_box(text).as_bytes();
        let got = validate(text, NAME, &mut store[..length], &mut tree);
        assert_eq!(got.number, number, "{name}");
    };
    let times = turns(|| {
        call(STORE_MIN, 0);
        let whole = timed(|| call(STORE_MIN, 0));
        let emptying = timed(|| call(STORE_MIN - 1, 17));
        (emptying, whole)
    });
    let (bytes, runs, share) = (text.len(), times.runs, times.ratio());
    let (emptying, whole) = (times.ours, times.theirs);
    println!("| {name} | {bytes} | {runs} | {emptying:.1?} | {whole:.1?} | {share:.2} |");
}
